/* What a checked build calls where a check fails: it says on standard error where that is, and who called it, and stops the program.
   The names come from the program's own table of symbols. No header is used, since the kit has none. */
typedef unsigned long word;

extern long write(int, const void *, word);
extern int open(const char *, int, ...);
extern long lseek(int, long, int);
extern void *mmap(void *, word, int, int, int, long);
extern const char __ehdr_start[] __attribute__((visibility("hidden")));

struct head { char magic[16]; short type, machine; int version; word entry, programs, sections; int flags; short own, size, count, each, many, names; };
struct section { int name, type; word flags, address, offset, size; int link, info; word align, each; };
struct symbol { int name; char info, other; short home; word value, size; };

static const char *program;

static void say(const char *text) {
    word length = 0;
    while (text[length]) length++;
    if (write(2, text, length) < 0) return;
}

/* Maps the program's own file. */
static void find_program(void) {
    int file = open("/proc/self/exe", 0);
    long size = file < 0 ? 0 : lseek(file, 0, 2);
    void *at = size > 0 ? mmap(0, (word)size, 1, 2, file, 0) : (void *)-1;
    program = at == (void *)-1 ? 0 : at;
}

/* The function in which this address lies; null where it is none of the program's. */
static const char *name_at(word address) {
    const struct head *head = (const void *)program;
    const struct section *sections = (const void *)(program + head->sections);
    for (int i = 0; i < head->many; i++) {
        if (sections[i].type != 2) continue;
        const struct symbol *symbols = (const void *)(program + sections[i].offset);
        const char *names = program + sections[sections[i].link].offset;
        for (word k = 0; k < sections[i].size / sizeof *symbols; k++)
            if ((symbols[k].info & 15) == 2 && address - symbols[k].value < symbols[k].size) return names + symbols[k].name;
    }
    return 0;
}

/* `where` is the function in which the check stands; `what` names the check, where it has a name. */
__attribute__((cold, noreturn)) void stop_at_check(const char *where, const char *what) {
    word *frame = __builtin_frame_address(0);
    say("stopped: a check failed in ");
    say(where);
    if (what) {
        say(" (");
        say(what);
        say(")");
    }
    find_program();
    for (int depth = 0; program && depth < 8; depth++) {
        const char *name = name_at(frame[1] - 1 - (word)__ehdr_start);
        if (!name) break;
        say(depth ? " < " : ", reached by ");
        say(name);
        if (frame[0] <= (word)frame) break;
        frame = (word *)frame[0];
    }
    say("\n");
    __builtin_trap();
}
