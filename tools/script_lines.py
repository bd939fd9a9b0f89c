"""The forms of script lines: the word of each instruction with the letters of its operands, and the form of each operand. tools/why tells
faults by them, and tools/line_patterns writes patterns for editors from them. docs/FORMATS.md has the same table for readers."""
import re
from typing import NamedTuple

# The letters are those of docs/FORMATS.md; `P..` stands for 0 to 4 partitions.
FORMS = {
    "repeat": "N", "end": "", "set": "R V", "add": "R V", "load": "R A n", "store": "A n V", "exec": "A", "k_oops": "", "k_panic": "",
    "k_mem_domain_init": "D P..", "k_mem_domain_add_partition": "D P", "k_mem_domain_remove_partition": "D P",
    "k_mem_domain_add_thread": "D T", "k_object_alloc": "K R", "k_object_access_grant": "O T", "k_object_access_revoke": "O T",
    "k_object_release": "O", "k_object_access_all_grant": "O", "k_thread_create": "T S V C I X", "k_thread_user_mode_enter": "C",
    "k_thread_name_set": "T A", "k_sem_init": "O V V", "k_sem_take": "O W", "k_sem_give": "O", "k_sem_reset": "O",
    "k_sem_count_get": "O R", "k_mutex_init": "O", "k_mutex_lock": "O W", "k_mutex_unlock": "O", "k_msgq_alloc_init": "O V V",
    "k_msgq_put": "O A W", "k_msgq_get": "O A W", "k_msgq_peek": "O A", "k_msgq_purge": "O", "k_msgq_num_used_get": "O R",
    "k_stack_alloc_init": "O V", "k_stack_push": "O V", "k_stack_pop": "O A W", "k_pipe_init": "O V", "k_pipe_write": "O A V W",
    "k_pipe_read": "O A V W", "k_pipe_reset": "O", "k_pipe_close": "O", "k_timer_start": "O V", "k_timer_stop": "O",
    "k_timer_status_get": "O R", "k_timer_status_sync": "O R", "k_thread_abort": "T", "k_thread_join": "T W", "k_thread_suspend": "T",
    "k_thread_resume": "T", "k_futex_wait": "A V W", "k_futex_wake": "A M",
}  # fmt: skip
MOST_PARTITIONS = 4
NUMBER = r"(?:[0-9]{1,10}|0x[0-9a-f]{1,8})"
NAME = r"[A-Za-z][A-Za-z0-9_]{0,23}"
TERM = rf"(?:{NUMBER}|r[0-7]|@{NAME}(?:\+[0-9]{{1,10}})?)"
ATTRIBUTES = ["P_RW_U_RW", "P_RW_U_RO", "P_RW_U_NA", "P_RO_U_RO", "P_RO_U_NA", "P_RX_U_RX"]
KINDS = ["thread", "sem", "mutex", "msgq", "stack", "pipe"]
OPTIONS = "(?:K_USER|K_INHERIT_PERMS|K_ESSENTIAL)"


class Operand(NamedTuple):
    """The pattern of an operand, and what it is, for a person."""

    pattern: str
    what: str


def term(what: str) -> Operand:
    return Operand(TERM, f"{what}: a number, a register r0 to r7, or a place @NAME or @NAME+N")


OPERANDS = {
    "V": term("a value"), "O": term("the address of an object"), "T": term("the address of a thread object"),
    "S": term("the address of a thread stack"), "A": term("an address in memory"),
    "N": Operand(NUMBER, "how often: a number from 1 to 1000"), "R": Operand("r[0-7]", "a register, r0 to r7"),
    "n": Operand("[124]", "a size: 1, 2 or 4 bytes"), "D": Operand(NAME, "the name of a domain"),
    "C": Operand(NAME, "the name of a script"),
    "P": Operand(
        rf"(?:{NAME}|{NUMBER}/{NUMBER}/(?:{'|'.join([*ATTRIBUTES, 'P_RWX_U_RWX'])}))", "a partition: its name, or ADDR/SIZE/ATTR"
    ),
    "K": Operand(f"(?:{'|'.join(KINDS)})", f"a kind: {', '.join(KINDS)}"),
    "W": Operand(
        r"(?:K_NO_WAIT|K_FOREVER|K_TICKS\([0-9]{1,7}\))", "a timeout: K_NO_WAIT, K_FOREVER, or K_TICKS(N) with N from 1 to 1000000"
    ),
    "M": Operand("(?:one|all)", "how many are woken: one or all"),
    "I": Operand("-?[0-9]{1,3}", "a priority: a number from -128 to 127, of which -16 to 14 are valid"),
    "X": Operand(
        rf"(?:0|{OPTIONS}(?:\+{OPTIONS}){{0,2}})", "options: 0, or some of K_USER, K_INHERIT_PERMS, K_ESSENTIAL joined by +"
    ),
}  # fmt: skip


def letters_of(word: str, operands: int = 0) -> list:
    """The letters of an instruction's operands, those that may be repeated as often as a line with so many operands has them."""
    letters = FORMS[word].split()
    if letters[-1:] == ["P.."]:
        letters[-1:] = ["P"] * max(0, min(MOST_PARTITIONS, operands - len(letters) + 1))
    return letters


def fits(letter: str, word: str) -> bool:
    """Whether a word has the form of an operand."""
    return re.fullmatch(OPERANDS[letter].pattern, word) is not None


def form_of(word: str) -> str:
    """An instruction with the letters of its operands."""
    return f"{word} {FORMS[word]}".rstrip()
