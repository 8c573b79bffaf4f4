/* A helper of keri: verdicts on Ed25519 signatures, and signatures, by libsodium. */
#include <errno.h>
#include <fcntl.h>
#include <signal.h>
#include <sodium.h>
#include <stdio.h>
#include <stdlib.h>
#include <string.h>
#include <sys/prctl.h>
#include <sys/resource.h>
#include <sys/stat.h>
#include <unistd.h>

#include "event_front.h"
#include "input_output.h"
#include "key_digest.h"
#include "key_folder.h"
#include "key_lines.h"
#include "primitives.h"
#include "protocol.h"

enum { LEAST_STACK = 256 * 1024 };

/* Puts something that can't be read or written where a standard stream is closed, lest a key's file come to stand
   there. */
static void fill_streams(void)
{
    for (int stream = STDIN_FILENO; stream <= STDERR_FILENO; stream++)
        if (fcntl(stream, F_GETFD) < 0 && open("/dev/null", stream == STDIN_FILENO ? O_WRONLY : O_RDONLY) != stream)
            fail(KEY_FAULT, "/dev/null", strerror(errno));
}

/* Sees to it that there is a stack for what follows, that no image of the memory is left or looked at, and that a file
   that may grow no further, or a pipe that nobody reads, is a fault of writing and no end. */
static void prepare(void)
{
    static const struct rlimit none = {0, 0};
    struct rlimit stack;

    if (getrlimit(RLIMIT_STACK, &stack) != 0 || stack.rlim_cur < LEAST_STACK)
        fail(KEY_FAULT, "the stack", "it has to be 256 KiB at least (ulimit -s)");
    if (setrlimit(RLIMIT_CORE, &none) != 0 || prctl(PR_SET_DUMPABLE, 0, 0, 0, 0) != 0)
        fail(KEY_FAULT, "core dumps", strerror(errno));
    if (signal(SIGPIPE, SIG_IGN) == SIG_ERR || signal(SIGXFSZ, SIG_IGN) == SIG_ERR)
        fail(KEY_FAULT, "signals", strerror(errno));
}

/* Prints the forms of the words. */
static void help(void)
{
    static const char text[] =
        "usage: keri-ed25519 new DIR [--witness]\n"
        "       keri-ed25519 next DIR [--sha256]\n"
        "       keri-ed25519 show DIR\n"
        "       keri-ed25519 allow DIR KEY DIGEST\n"
        "       KERI_KEYS=DIR keri-ed25519 rehearse\n"
        "       keri-ed25519 --version\n"
        "\n"
        "new makes a key, keeps it in the folder DIR, and prints its line key for a plan; with --witness it can't be\n"
        "rotated. next makes another key, which a plan promises, and prints its line next alone, a digest by BLAKE3,\n"
        "or with --sha256 by SHA2-256. show prints what the folder knows of each key, and its lines; those that begin\n"
        "with # are for no plan. allow lets the KEY sign the event with this DIGEST, though it has signed another one\n"
        "for its place. rehearse answers questions on standard input, as keri asks them, with the keys in the folder\n"
        "that KERI_KEYS names. man keri-ed25519 has the statuses.\n"
        "\n"
        "example: keri-ed25519 new keys > keys.pub && keri-ed25519 next drawer > drawer.pub\n";

    if (!write_whole(STDOUT_FILENO, text, strlen(text)))
        fail(WRITE_FAULT, "standard output", strerror(errno));
}

/* Prints which version this is, and of which library. */
static void version(void)
{
    char text[128];
    int length = snprintf(text, sizeof text, "keri-ed25519 %s over libsodium %s\n", VERSION, sodium_version_string());

    if (!write_whole(STDOUT_FILENO, text, (size_t)length))
        fail(WRITE_FAULT, "standard output", strerror(errno));
}

/* A word that the program takes first, its form, how many words stand behind it at least, and the option that may stand
   behind these. */
static const struct form {
    const char *word, *text;
    int least;
    const char *option;
} forms[] = {
    {"new", "new DIR [--witness]", 1, "--witness"}, {"next", "next DIR [--sha256]", 1, "--sha256"},
    {"show", "show DIR", 1, NULL}, {"allow", "allow DIR KEY DIGEST", 3, NULL},
    {"rehearse", "rehearse", 0, NULL}, {"--help", "--help", 0, NULL}, {"-h", "-h", 0, NULL}, {"help", "help", 0, NULL},
    {"--version", "--version", 0, NULL}, {"-V", "-V", 0, NULL},
};

/* Ends the program, since the words aren't of the form. */
static _Noreturn void wrong(const char *word, const char *fault, const char *form)
{
    char text[512];

    (void)snprintf(text, sizeof text, "%s: %s", fault, form);
    fail(WORDS, word, text);
}

/* The form whose word comes first. */
static const struct form *form_of(int count, char **words)
{
    static const char all[] = "new DIR [--witness] | next DIR [--sha256] | show DIR | allow DIR KEY DIGEST | rehearse; "
                              "--help says more";

    if (count < 2)
        fail(WORDS, "usage", all);
    for (size_t place = 0; place < sizeof forms / sizeof *forms; place++)
        if (strcmp(words[1], forms[place].word) == 0)
            return forms + place;
    wrong(words[1], "it is no word of this program", all);
}

/* Sees to it that the words behind the first are those of its form; answers whether its option is among them. */
static bool has_option(const struct form *form, int count, char **words)
{
    for (int place = 2; place < count; place++) {
        bool is_option = form->option != NULL && strcmp(words[place], form->option) == 0;
        if (words[place][0] == '-' && !is_option)
            wrong(words[place], "it doesn't go with this word", form->text);
        if (is_option && place != 2 + form->least)
            wrong(words[place], "it stands once, behind the folder", form->text);
        if (!is_option && place >= 2 + form->least)
            wrong(words[place], "it is a word too many", form->text);
    }
    if (count < 2 + form->least)
        wrong(form->word, "a word is missing", form->text);
    return count > 2 + form->least;
}

/* Sees to it that what is to be allowed is a key and a digest. */
static void look_at_leave(const struct form *form, const char *key, const char *digest)
{
    unsigned char bytes[KEY_BYTES];
    char name[NAME_CHARACTERS + 1];

    if (strlen(key) != KEY_CHARACTERS || !read_key(key, bytes))
        wrong(key, "it isn't a key", form->text);
    if (strlen(digest) != NAME_CHARACTERS || !read_name(digest, "EI", name))
        wrong(digest, "it isn't a digest", form->text);
}

/* Does what the words ask for. */
static void run(int count, char **words)
{
    const struct form *form = form_of(count, words);
    bool is_other = has_option(form, count, words);

    if (strcmp(form->word, "new") == 0)
        print_new(words[2], is_other ? 'B' : 'D');
    else if (strcmp(form->word, "next") == 0)
        print_next(words[2], is_other ? BY_SHA256 : BY_BLAKE3);
    else if (strcmp(form->word, "show") == 0)
        print_kept(words[2]);
    else if (strcmp(form->word, "rehearse") == 0)
        serve(getenv("KERI_KEYS"), getenv("KERI_THREADS"));
    else if (strcmp(form->word, "--version") == 0 || strcmp(form->word, "-V") == 0)
        version();
    else if (strcmp(form->word, "allow") != 0)
        help();
    else {
        look_at_leave(form, words[3], words[4]);
        allow_event(words[2], words[3], words[4]);
    }
}

int main(int count, char **words)
{
    fill_streams();
    prepare();
    (void)umask(077);
    if (sodium_init() < 0)
        fail(KEY_FAULT, "libsodium", "it can't start");
    run(count, words);
    return 0;
}
