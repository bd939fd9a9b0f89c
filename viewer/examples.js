"use strict";
// Examples that the page shows by itself, each a description, a line =====, and its output.
// tools/page_examples writes this file from the folder examples.

const EXAMPLES = {
  "sensor-and-logger":
    "#:schema ../schema/zumode.schema.json\n" +
    "# A supervisor sets up a domain, grants a queue, creates two user threads and leaves supervisor mode for good.\n" +
    "# One thread stores a value in the shared partition and sends it; the other waits for it and copies it out.\n" +
    "version = 1\n" +
    "mpu = \"pmsav7\"\n" +
    "regions = 8\n" +
    "oops = \"abort\"\n" +
    "rodata = \"73656e736f7200\"\n" +
    "partition = [\n" +
    " {name = \"p_app\", size = 256, attr = \"P_RW_U_RW\"}]\n" +
    "domain = [\n" +
    " {name = \"boot_d\", partitions = []},\n" +
    " {name = \"app\"}]\n" +
    "object = [\n" +
    " {name = \"main\", kind = \"thread\"},\n" +
    " {name = \"main_s\", kind = \"thread_stack\", size = 1024},\n" +
    " {name = \"sensor\", kind = \"thread\"},\n" +
    " {name = \"sensor_s\", kind = \"thread_stack\", size = 512},\n" +
    " {name = \"logger\", kind = \"thread\"},\n" +
    " {name = \"logger_s\", kind = \"thread_stack\", size = 512},\n" +
    " {name = \"q\", kind = \"msgq\", msg_size = 4, max_msgs = 8}]\n" +
    "boot = [\n" +
    " {thread = \"main\", stack = \"main_s\", script = \"go\", mode = \"supervisor\", priority = 0, domain = \"boot_d\"}]\n" +
    "\n" +
    "[[script]]\n" +
    "name = \"go\"\n" +
    "lines = [\n" +
    " \"k_mem_domain_init app p_app\",\n" +
    " \"k_mem_domain_add_thread app @main\",\n" +
    " \"k_object_access_grant @q @sensor\",\n" +
    " \"k_object_access_grant @q @logger\",\n" +
    " \"k_thread_create @logger @logger_s 512 log 5 K_USER\",\n" +
    " \"k_thread_create @sensor @sensor_s 512 sense 5 K_USER\",\n" +
    " \"k_thread_user_mode_enter idle\"]\n" +
    "\n" +
    "[[script]]\n" +
    "name = \"log\"\n" +
    "lines = [\n" +
    " \"k_msgq_get @q @p_app K_FOREVER\"]\n" +
    "\n" +
    "[[script]]\n" +
    "name = \"sense\"\n" +
    "lines = [\n" +
    " \"k_thread_name_set @sensor @rodata\",\n" +
    " \"store @p_app+16 4 0x2a\",\n" +
    " \"k_msgq_put @q @p_app+16 K_FOREVER\"]\n" +
    "\n" +
    "[[script]]\n" +
    "name = \"idle\"\n" +
    "lines = [\n" +
    " \"set r0 1\"]\n" +
    "=====\n" +
    "main begin go 1\n" +
    "main domain init app 0\n" +
    "main reply 0\n" +
    "main begin go 2\n" +
    "main check main thread init ok\n" +
    "main domain move app main 0\n" +
    "main reply 0\n" +
    "main begin go 3\n" +
    "main check sensor thread any ok\n" +
    "main check q any any ok\n" +
    "main grant sensor q ok\n" +
    "main reply void\n" +
    "main begin go 4\n" +
    "main check logger thread any ok\n" +
    "main check q any any ok\n" +
    "main grant logger q ok\n" +
    "main reply void\n" +
    "main begin go 5\n" +
    "main check logger thread uninit ok\n" +
    "main check logger_s thread_stack uninit ok\n" +
    "main setinit logger ok\n" +
    "main setinit logger_s ok\n" +
    "main erase logger_s\n" +
    "main own logger ok\n" +
    "main start logger\n" +
    "main reply logger\n" +
    "logger begin log 1\n" +
    "logger check q msgq init ok\n" +
    "logger probe 0x20000000 4 ok\n" +
    "logger act q wait\n" +
    "main begin go 6\n" +
    "main check sensor thread uninit ok\n" +
    "main check sensor_s thread_stack uninit ok\n" +
    "main setinit sensor ok\n" +
    "main setinit sensor_s ok\n" +
    "main erase sensor_s\n" +
    "main own sensor ok\n" +
    "main start sensor\n" +
    "main reply sensor\n" +
    "sensor begin sense 1\n" +
    "sensor check sensor thread init ok\n" +
    "sensor copystr 0x08000000 6\n" +
    "sensor name sensor\n" +
    "sensor reply 0\n" +
    "main begin go 7\n" +
    "main erase main_s\n" +
    "main user\n" +
    "sensor begin sense 2\n" +
    "sensor store 0x20000010 4 0x2a\n" +
    "main begin idle 1\n" +
    "sensor begin sense 3\n" +
    "sensor check q msgq init ok\n" +
    "sensor copyin 0x20000010 4 ok\n" +
    "sensor act q 0 wake logger 0\n" +
    "sensor reply 0\n" +
    "main exit\n" +
    "main drop main main kept\n" +
    "main uninit main_s\n" +
    "main uninit main\n" +
    "logger resume\n" +
    "logger copyout 0x20000000 4 ok\n" +
    "logger reply 0\n" +
    "sensor exit\n" +
    "sensor drop sensor sensor kept\n" +
    "sensor drop sensor q kept\n" +
    "sensor uninit sensor_s\n" +
    "sensor uninit sensor\n" +
    "logger exit\n" +
    "logger drop logger logger kept\n" +
    "logger drop logger q kept\n" +
    "logger uninit logger_s\n" +
    "logger uninit logger\n" +
    "dump\n" +
    "thread main ended user 0 app\n" +
    "thread sensor ended user 5 app\n" +
    "thread logger ended user 5 app\n" +
    "object main thread uninit private - -\n" +
    "object main_s thread_stack uninit private - -\n" +
    "object sensor thread uninit private - 73656e736f72\n" +
    "object sensor_s thread_stack uninit private - -\n" +
    "object logger thread uninit private - -\n" +
    "object logger_s thread_stack uninit private - -\n" +
    "object q msgq init private - 0/8\n" +
    "domain boot_d -\n" +
    "domain app 0x20000000/256/P_RW_U_RW\n" +
    "memory 0x20000000 2a0000000000000000000000000000002a000000000000000000000000000000\n",
  "copy-after-a-cut":
    "#:schema ../schema/zumode.schema.json\n" +
    "# A partition leaves its domain while a thread waits to copy a message into it.\n" +
    "# The copy is checked again when the thread resumes, and fails.\n" +
    "version = 1\n" +
    "mpu = \"pmsav7\"\n" +
    "regions = 8\n" +
    "oops = \"abort\"\n" +
    "partition = [{name = \"p\", size = 32, attr = \"P_RW_U_RW\"}]\n" +
    "domain = [{name = \"d\", partitions = [\"p\"]}]\n" +
    "object = [\n" +
    "  {name = \"a\", kind = \"thread\"},\n" +
    "  {name = \"sa\", kind = \"thread_stack\", size = 64},\n" +
    "  {name = \"b\", kind = \"thread\"},\n" +
    "  {name = \"sb\", kind = \"thread_stack\", size = 64},\n" +
    "  {name = \"q\", kind = \"msgq\", msg_size = 4, max_msgs = 2}]\n" +
    "boot = [\n" +
    "  {thread = \"b\", stack = \"sb\", script = \"c\", priority = 0, domain = \"d\", grants = [\"q\"]},\n" +
    "  {thread = \"a\", stack = \"sa\", script = \"m\", priority = 0, domain = \"d\", mode = \"supervisor\"}]\n" +
    "script = [\n" +
    "  {name = \"m\", lines = [\"k_mem_domain_remove_partition d p\", \"k_msgq_put @q @sa K_NO_WAIT\"]},\n" +
    "  {name = \"c\", lines = [\"k_msgq_get @q @p K_FOREVER\"]}]\n" +
    "=====\n" +
    "b begin c 1\n" +
    "b check q msgq init ok\n" +
    "b probe 0x20000000 4 ok\n" +
    "b act q wait\n" +
    "a begin m 1\n" +
    "a domain remove d 0x20000000/32/P_RW_U_RW 0\n" +
    "a reply 0\n" +
    "a begin m 2\n" +
    "a check q msgq init ok\n" +
    "a copyin 0x20080000 4 ok\n" +
    "a act q 0 wake b 0\n" +
    "a reply 0\n" +
    "b resume\n" +
    "b copyout 0x20000000 4 EFAULT\n" +
    "b fatal 3 EFAULT\n" +
    "b drop b b kept\n" +
    "b drop b q kept\n" +
    "b uninit sb\n" +
    "b uninit b\n" +
    "a exit\n" +
    "a drop a a kept\n" +
    "a uninit sa\n" +
    "a uninit a\n" +
    "dump\n" +
    "thread a ended supervisor 0 d\n" +
    "thread b ended user 0 d\n" +
    "object a thread uninit private - -\n" +
    "object sa thread_stack uninit private - -\n" +
    "object b thread uninit private - -\n" +
    "object sb thread_stack uninit private - -\n" +
    "object q msgq init private - 0/2\n" +
    "domain d -\n",
  "last-release":
    "#:schema ../schema/zumode.schema.json\n" +
    "# Two threads hold a dynamic message queue. The release of the last permission makes it gone at that step,\n" +
    "# and it is recycled: its bytes are back in the pool.\n" +
    "version = 1\n" +
    "mpu = \"pmsav7\"\n" +
    "regions = 8\n" +
    "oops = \"abort\"\n" +
    "pool = [{name = \"h\", size = 64}]\n" +
    "domain = [{name = \"d\", partitions = []}]\n" +
    "object = [\n" +
    "  {name = \"a\", kind = \"thread\"},\n" +
    "  {name = \"sa\", kind = \"thread_stack\", size = 64},\n" +
    "  {name = \"b\", kind = \"thread\"},\n" +
    "  {name = \"sb\", kind = \"thread_stack\", size = 64}]\n" +
    "boot = [\n" +
    "  {thread = \"a\", stack = \"sa\", script = \"m\", priority = 0, domain = \"d\", pool = \"h\", grants = [\"b\"]},\n" +
    "  {thread = \"b\", stack = \"sb\", script = \"c\", priority = 0, domain = \"d\"}]\n" +
    "script = [\n" +
    "  {name = \"m\", lines = [\"k_object_alloc msgq r0\", \"k_object_access_grant r0 @b\", \"k_object_release r0\"]},\n" +
    "  {name = \"c\", lines = [\"set r0 0\", \"set r0 0\", \"k_object_release 0x48000400\"]}]\n" +
    "=====\n" +
    "a begin m 1\n" +
    "a reserve msgq #16\n" +
    "a born #16\n" +
    "a reply #16\n" +
    "b begin c 1\n" +
    "a begin m 2\n" +
    "a check b thread any ok\n" +
    "a check #16 any any ok\n" +
    "a grant b #16 ok\n" +
    "a reply void\n" +
    "b begin c 2\n" +
    "a begin m 3\n" +
    "a check #16 any any ok\n" +
    "a drop a #16 kept\n" +
    "a reply void\n" +
    "b begin c 3\n" +
    "b check #16 any any ok\n" +
    "b drop b #16 gone\n" +
    "b reply void\n" +
    "b recycle #16\n" +
    "a exit\n" +
    "a drop a a kept\n" +
    "a drop a b kept\n" +
    "a uninit sa\n" +
    "a uninit a\n" +
    "b exit\n" +
    "b drop b b kept\n" +
    "b uninit sb\n" +
    "b uninit b\n" +
    "dump\n" +
    "thread a ended user 0 d\n" +
    "thread b ended user 0 d\n" +
    "object a thread uninit private - -\n" +
    "object sa thread_stack uninit private - -\n" +
    "object b thread uninit private - -\n" +
    "object sb thread_stack uninit private - -\n" +
    "domain d -\n" +
    "pool h 64/64\n",
  "parser-on-four-processors":
    "#:schema ../schema/zumode.schema.json\n" +
    "# Four threads on four processors, whose steps come between those of the others. A supervisor takes the permission\n" +
    "# on a queue from a parser, whose second look into the queue is refused then; a sender and a receiver go on.\n" +
    "version = 1\n" +
    "mpu = \"pmsav7\"\n" +
    "regions = 8\n" +
    "oops = \"abort\"\n" +
    "partition = [\n" +
    "  {name = \"mail\", size = 64, attr = \"P_RW_U_RW\"},\n" +
    "  {name = \"key\", size = 32, attr = \"P_RW_U_NA\", data = \"5e\"}]\n" +
    "domain = [\n" +
    "  {name = \"app\", partitions = [\"mail\"]},\n" +
    "  {name = \"safe\", partitions = [\"mail\", \"key\"]}]\n" +
    "object = [\n" +
    "  {name = \"keeper\", kind = \"thread\"}, {name = \"keeper_s\", kind = \"thread_stack\", size = 64},\n" +
    "  {name = \"sender\", kind = \"thread\"}, {name = \"sender_s\", kind = \"thread_stack\", size = 64},\n" +
    "  {name = \"receiver\", kind = \"thread\"}, {name = \"receiver_s\", kind = \"thread_stack\", size = 64},\n" +
    "  {name = \"parser\", kind = \"thread\"}, {name = \"parser_s\", kind = \"thread_stack\", size = 64},\n" +
    "  {name = \"q\", kind = \"msgq\", msg_size = 4, max_msgs = 2},\n" +
    "  {name = \"done\", kind = \"sem\", count = 0, limit = 4}]\n" +
    "boot = [\n" +
    "  {thread = \"keeper\", stack = \"keeper_s\", script = \"keep\", mode = \"supervisor\", priority = 0, domain = \"safe\"},\n" +
    "  {thread = \"sender\", stack = \"sender_s\", script = \"send\", priority = 1, domain = \"app\", grants = [\"q\", \"done\"]},\n" +
    "  {thread = \"receiver\", stack = \"receiver_s\", script = \"receive\", priority = 2, domain = \"app\", grants = [\"q\", \"done\"]},\n" +
    "  {thread = \"parser\", stack = \"parser_s\", script = \"parse\", priority = 3, domain = \"app\", grants = [\"q\"]}]\n" +
    "\n" +
    "[[script]]\n" +
    "name = \"keep\"\n" +
    "lines = [\n" +
    "  \"load r0 @key 1\",\n" +
    "  \"k_object_access_revoke @q @parser\",\n" +
    "  \"k_sem_take @done K_FOREVER\"]\n" +
    "\n" +
    "[[script]]\n" +
    "name = \"send\"\n" +
    "lines = [\n" +
    "  \"store @mail+32 4 0x2a\",\n" +
    "  \"k_msgq_put @q @mail+32 K_FOREVER\",\n" +
    "  \"k_msgq_put @q @mail+32 K_FOREVER\",\n" +
    "  \"k_sem_give @done\"]\n" +
    "\n" +
    "[[script]]\n" +
    "name = \"receive\"\n" +
    "lines = [\n" +
    "  \"k_msgq_get @q @mail K_FOREVER\",\n" +
    "  \"load r1 @mail 4\",\n" +
    "  \"k_sem_give @done\"]\n" +
    "\n" +
    "[[script]]\n" +
    "name = \"parse\"\n" +
    "lines = [\n" +
    "  \"k_msgq_peek @q @mail+16\",\n" +
    "  \"k_msgq_peek @q @mail+16\",\n" +
    "  \"load r2 @key 1\"]\n" +
    "=====\n" +
    "receiver begin receive 1\n" +
    "parser begin parse 1\n" +
    "parser check q msgq init ok\n" +
    "keeper begin keep 1\n" +
    "sender begin send 1\n" +
    "receiver check q msgq init ok\n" +
    "keeper load 0x20000040 1 0x5e\n" +
    "sender store 0x20000020 4 0x2a\n" +
    "parser probe 0x20000010 4 ok\n" +
    "sender begin send 2\n" +
    "sender check q msgq init ok\n" +
    "receiver probe 0x20000000 4 ok\n" +
    "parser act q ENOMSG\n" +
    "parser reply ENOMSG\n" +
    "keeper begin keep 2\n" +
    "keeper check parser thread any ok\n" +
    "keeper check q any any ok\n" +
    "parser begin parse 2\n" +
    "keeper drop parser q kept\n" +
    "parser check q msgq init EPERM\n" +
    "sender copyin 0x20000020 4 ok\n" +
    "keeper reply void\n" +
    "parser fatal 3 EPERM\n" +
    "sender act q 0\n" +
    "keeper begin keep 3\n" +
    "sender reply 0\n" +
    "receiver act q 0\n" +
    "keeper check done sem init ok\n" +
    "receiver copyout 0x20000000 4 ok\n" +
    "parser drop parser parser kept\n" +
    "keeper act done wait\n" +
    "sender begin send 3\n" +
    "sender check q msgq init ok\n" +
    "sender copyin 0x20000020 4 ok\n" +
    "receiver reply 0\n" +
    "sender act q 0\n" +
    "receiver begin receive 2\n" +
    "sender reply 0\n" +
    "sender begin send 4\n" +
    "sender check done sem init ok\n" +
    "sender act done void wake keeper 0\n" +
    "keeper resume\n" +
    "receiver load 0x20000000 4 0x2a\n" +
    "keeper reply 0\n" +
    "sender reply void\n" +
    "keeper exit\n" +
    "sender exit\n" +
    "keeper drop keeper keeper kept\n" +
    "sender drop sender sender kept\n" +
    "receiver begin receive 3\n" +
    "receiver check done sem init ok\n" +
    "receiver act done void\n" +
    "receiver reply void\n" +
    "receiver exit\n" +
    "sender drop sender q kept\n" +
    "receiver drop receiver receiver kept\n" +
    "sender drop sender done kept\n" +
    "receiver drop receiver q kept\n" +
    "receiver drop receiver done kept\n" +
    "parser uninit parser_s\n" +
    "parser uninit parser\n" +
    "receiver uninit receiver_s\n" +
    "receiver uninit receiver\n" +
    "sender uninit sender_s\n" +
    "sender uninit sender\n" +
    "keeper uninit keeper_s\n" +
    "keeper uninit keeper\n" +
    "dump\n" +
    "thread keeper ended supervisor 0 safe\n" +
    "thread sender ended user 1 app\n" +
    "thread receiver ended user 2 app\n" +
    "thread parser ended user 3 app\n" +
    "object keeper thread uninit private - -\n" +
    "object keeper_s thread_stack uninit private - -\n" +
    "object sender thread uninit private - -\n" +
    "object sender_s thread_stack uninit private - -\n" +
    "object receiver thread uninit private - -\n" +
    "object receiver_s thread_stack uninit private - -\n" +
    "object parser thread uninit private - -\n" +
    "object parser_s thread_stack uninit private - -\n" +
    "object q msgq init private - 1/2\n" +
    "object done sem init private - 1/4\n" +
    "domain app 0x20000000/64/P_RW_U_RW\n" +
    "domain safe 0x20000000/64/P_RW_U_RW,0x20000040/32/P_RW_U_NA\n" +
    "memory 0x20000000 2a00000000000000000000000000000000000000000000000000000000000000\n" +
    "memory 0x20000020 2a00000000000000000000000000000000000000000000000000000000000000\n" +
    "memory 0x20000040 5e00000000000000000000000000000000000000000000000000000000000000\n",
  "watchdog":
    "#:schema ../schema/zumode.schema.json\n" +
    "# A supervisor watches a worker, which has to report at least every five ticks. The third report doesn't come, since the worker waits\n" +
    "# for good. So the supervisor stops it, waits for its end, and starts it anew on the same thread object and stack.\n" +
    "version = 1\n" +
    "mpu = \"pmsav7\"\n" +
    "regions = 8\n" +
    "oops = \"abort\"\n" +
    "domain = [{name = \"app\", partitions = []}]\n" +
    "object = [\n" +
    " {name = \"main\", kind = \"thread\"},\n" +
    " {name = \"main_s\", kind = \"thread_stack\", size = 512},\n" +
    " {name = \"worker\", kind = \"thread\"},\n" +
    " {name = \"worker_s\", kind = \"thread_stack\", size = 256},\n" +
    " {name = \"alive\", kind = \"sem\", count = 0, limit = 1},\n" +
    " {name = \"round\", kind = \"timer\"},\n" +
    " {name = \"input\", kind = \"sem\", count = 0, limit = 1}]\n" +
    "boot = [\n" +
    " {thread = \"main\", stack = \"main_s\", script = \"watch\", mode = \"supervisor\", priority = 0, domain = \"app\", grants = [\"worker\", \"worker_s\", \"alive\"]},\n" +
    " {thread = \"worker\", stack = \"worker_s\", script = \"work\", mode = \"user\", priority = 5, domain = \"app\", grants = [\"alive\", \"round\", \"input\"]}]\n" +
    "\n" +
    "[[script]]\n" +
    "name = \"watch\"\n" +
    "lines = [\n" +
    " \"k_sem_take @alive K_TICKS(5)\",\n" +
    " \"k_sem_take @alive K_TICKS(5)\",\n" +
    " \"k_sem_take @alive K_TICKS(5)\",\n" +
    " \"k_thread_abort @worker\",\n" +
    " \"k_thread_join @worker K_FOREVER\",\n" +
    " \"k_thread_create @worker @worker_s 256 again 5 K_USER+K_INHERIT_PERMS\",\n" +
    " \"k_thread_join @worker K_TICKS(5)\"]\n" +
    "\n" +
    "[[script]]\n" +
    "name = \"work\"\n" +
    "lines = [\n" +
    " \"repeat 2\",\n" +
    " \"k_timer_start @round 3\",\n" +
    " \"k_timer_status_sync @round r0\",\n" +
    " \"k_sem_give @alive\",\n" +
    " \"end\",\n" +
    " \"k_sem_take @input K_FOREVER\"]\n" +
    "\n" +
    "[[script]]\n" +
    "name = \"again\"\n" +
    "lines = [\"k_sem_give @alive\"]\n" +
    "=====\n" +
    "main begin watch 1\n" +
    "main check alive sem init ok\n" +
    "main arm 5\n" +
    "main act alive wait\n" +
    "worker begin work 2\n" +
    "worker check round timer init ok\n" +
    "worker arm 3\n" +
    "worker act round void\n" +
    "worker reply void\n" +
    "worker begin work 3\n" +
    "worker check round timer init ok\n" +
    "worker act round wait\n" +
    "worker tick 3\n" +
    "worker expire round wake worker 1\n" +
    "worker resume\n" +
    "worker reply 1\n" +
    "worker begin work 4\n" +
    "worker check alive sem init ok\n" +
    "worker act alive void wake main 0\n" +
    "worker reply void\n" +
    "main resume\n" +
    "main reply 0\n" +
    "worker begin work 2\n" +
    "worker check round timer init ok\n" +
    "worker arm 6\n" +
    "worker act round void\n" +
    "worker reply void\n" +
    "main begin watch 2\n" +
    "main check alive sem init ok\n" +
    "main arm 8\n" +
    "main act alive wait\n" +
    "worker begin work 3\n" +
    "worker check round timer init ok\n" +
    "worker act round wait\n" +
    "worker tick 5\n" +
    "worker tick 6\n" +
    "worker expire round wake worker 1\n" +
    "worker resume\n" +
    "worker reply 1\n" +
    "worker begin work 4\n" +
    "worker check alive sem init ok\n" +
    "worker act alive void wake main 0\n" +
    "worker reply void\n" +
    "main resume\n" +
    "main reply 0\n" +
    "worker begin work 6\n" +
    "worker check input sem init ok\n" +
    "worker act input wait\n" +
    "main begin watch 3\n" +
    "main check alive sem init ok\n" +
    "main arm 11\n" +
    "main act alive wait\n" +
    "main tick 8\n" +
    "main tick 11\n" +
    "main timeout main\n" +
    "main resume\n" +
    "main reply EAGAIN\n" +
    "main begin watch 4\n" +
    "main check worker thread init ok\n" +
    "main abort worker ok\n" +
    "main cut worker\n" +
    "main reply void\n" +
    "worker killed\n" +
    "worker drop worker worker kept\n" +
    "worker drop worker alive kept\n" +
    "worker drop worker round kept\n" +
    "worker drop worker input kept\n" +
    "worker uninit worker_s\n" +
    "worker uninit worker\n" +
    "main begin watch 5\n" +
    "main check worker thread init EINVAL\n" +
    "main reply 0\n" +
    "main begin watch 6\n" +
    "main check worker thread uninit ok\n" +
    "main check worker_s thread_stack uninit ok\n" +
    "main setinit worker ok\n" +
    "main setinit worker_s ok\n" +
    "main erase worker_s\n" +
    "main own worker ok\n" +
    "main inherit worker worker_s\n" +
    "main inherit worker alive\n" +
    "main start worker\n" +
    "main reply worker\n" +
    "worker begin again 1\n" +
    "worker check alive sem init ok\n" +
    "worker act alive void\n" +
    "worker reply void\n" +
    "main begin watch 7\n" +
    "main check worker thread init ok\n" +
    "main arm 16\n" +
    "main join worker wait\n" +
    "worker exit\n" +
    "worker drop worker worker kept\n" +
    "worker drop worker worker_s kept\n" +
    "worker drop worker alive kept\n" +
    "worker uninit worker_s\n" +
    "worker left worker wake main 0\n" +
    "worker uninit worker\n" +
    "main resume\n" +
    "main reply 0\n" +
    "main exit\n" +
    "main drop main main kept\n" +
    "main drop main worker kept\n" +
    "main drop main worker_s kept\n" +
    "main drop main alive kept\n" +
    "main uninit main_s\n" +
    "main uninit main\n" +
    "main tick 16\n" +
    "dump\n" +
    "thread main ended supervisor 0 app\n" +
    "thread worker ended user 5 app\n" +
    "object main thread uninit private - -\n" +
    "object main_s thread_stack uninit private - -\n" +
    "object worker thread uninit private - -\n" +
    "object worker_s thread_stack uninit private - -\n" +
    "object alive sem init private - 1/1\n" +
    "object round timer init private - 0/stopped\n" +
    "object input sem init private - 0/1\n" +
    "domain app -\n",
};
