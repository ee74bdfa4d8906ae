/* What the proved program asks of the system, asked of the host of np.wasm: words, named inputs, and two outputs.
 *
 * Natively these are functions of Linux's C library and of the kit's C. Here each is a call of a function that the host gives (host.js): a
 * worker of a page, or a program that runs the module. There are no other files, no environment, no clock and no network. Nothing proves
 * this file.
 */
typedef unsigned long long u64;
typedef long long i64;

#define FROM_HOST(name) __attribute__((import_module("np"), import_name(name)))
#define NO_ENTRY 2   /* Linux's numbers of errors, of which the program tells only that of memory apart */
#define IO_ERROR 5

/* Word i of the command line: puts its bytes at the start of `into`, and answers how many they are, -1 where there is no such word, or -2
   where they do not fit. Word 0 is the program's name. */
FROM_HOST("word") i64 host_word(u64 i, unsigned char *into, u64 room);

/* Opens the input whose name has these bytes, and answers its number, which is from 3 on, or -1 where there is none. */
FROM_HOST("open") int host_open(const char *name, u64 length);

/* Reads the next bytes of an input, 0 being standard input: answers how many, 0 at its end, or -1. */
FROM_HOST("read") i64 host_read(int input, unsigned char *into, u64 room);

/* Takes bytes of an output, 1 being standard output and 2 standard error: answers how many it took, or -1. */
FROM_HOST("write") i64 host_write(int output, const unsigned char *from, u64 length);

static int error;

int rattle_errno(void) {
    return error;
}

void rattle_set_errno(int number) {
    error = number;
}

i64 rattle_arg(u64 i, unsigned char *into, u64 room) {
    return host_word(i, into, room);
}

/* There are no variables of an environment. */
i64 rattle_env(const char *name, unsigned char *into, u64 room) {
    return -1;
}

i64 rattle_env_at(u64 i, unsigned char *into, u64 room) {
    return -1;
}

int open(const char *name, int flags, ...) {
    u64 length = 0;
    while (name[length])
        length++;
    int input = host_open(name, length);
    error = input < 0 ? NO_ENTRY : error;
    return input;
}

/* The host keeps what it opened: a run opens each input once. */
int close(int input) {
    return 0;
}

i64 read(int input, unsigned char *into, u64 room) {
    i64 count = host_read(input, into, room);
    error = count < 0 ? IO_ERROR : error;
    return count;
}

i64 write(int output, const unsigned char *from, u64 length) {
    i64 count = host_write(output, from, length);
    error = count < 0 ? IO_ERROR : error;
    return count;
}

/* Nothing is sought, only asked where an input stands, which a pipe does not tell either. */
i64 lseek(int input, i64 offset, int whence) {
    error = IO_ERROR;
    return -1;
}

/* What the program writes by where its processor lacks an instruction, which it asks below. */
i64 __write(int output, const unsigned char *from, u64 length) {
    return write(output, from, length);
}

/* The program begins by asking glibc whether an x86-64 processor has the instructions that its native form uses. Here it has other ones, so
   that the answer is that of a processor which has them all: of any leaf, four words of what there is and four of what is in use. */
static const unsigned char every_feature[32] = {[0 ... 31] = 0xff};

const void *__x86_get_cpuid_feature_leaf(unsigned leaf) {
    return every_feature;
}

/* There are no signals. */
i64 __sysv_signal(int number, i64 handler) {
    return 0;
}

/* The program's entry, under the name that LLVM gives to a main without parameters. */
int __original_main(void);

/* Runs the program once, and answers its status. A module runs once: a further run is that of a new instance. */
__attribute__((export_name("run"))) int run(void) {
    return __original_main();
}
