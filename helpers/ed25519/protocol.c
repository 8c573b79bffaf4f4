#include "protocol.h"

#include <errno.h>
#include <string.h>
#include <unistd.h>

#include "input_output.h"
#include "key_folder.h"
#include "primitives.h"
#include "question.h"
#include "verdict_ring.h"

enum { LENGTH_DIGITS = 8 };

/* Ends the program, since the question isn't of the form, once those before it are answered. */
static _Noreturn void malformed(const char *fault)
{
    answer_all();
    fail(MALFORMED, "malformed question", fault);
}

/* Reads so many bytes and none behind them, or fewer only where the input ends. Answers how many. */
static size_t read_input(void *bytes, size_t length)
{
    ssize_t count = read_whole(STDIN_FILENO, bytes, length);

    if (count < 0) {
        int error = errno;
        answer_all();
        fail(READ_FAULT, "standard input", strerror(error));
    }
    return (size_t)count;
}

/* Reads a field of so many bytes. */
static void read_field(void *field, size_t length)
{
    if (read_input(field, length) < length)
        malformed("it is cut short");
}

/* Reads the body's length. */
static size_t read_length(void)
{
    static const char digits[] = "0123456789abcdef";
    char text[LENGTH_DIGITS];
    size_t length = 0;

    read_field(text, sizeof text);
    for (size_t place = 0; place < sizeof text; place++) {
        const char *digit = memchr(digits, text[place], 16);
        if (digit == NULL)
            malformed("its length isn't in lower-case hexadecimal");
        length = 16 * length + (size_t)(digit - digits);
    }
    if (length > MOST_BYTES)
        malformed("its length is over 65535");
    return length;
}

/* Reads the key, and keeps its spelling. */
static void read_key_field(struct question *question)
{
    read_field(question->key, KEY_CHARACTERS);
    question->key[KEY_CHARACTERS] = '\0';
    if (!read_key(question->key, question->key_bytes))
        malformed("its key isn't one");
}

/* Reads a verdict question's signature. */
static void read_signature_field(struct question *question)
{
    char text[SIGNATURE_CHARACTERS];

    read_field(text, sizeof text);
    if (!read_signature(text, question->signature))
        malformed("its signature isn't one");
}

/* Reads a question; false where the input ends before it. Each field is judged as soon as it is read, so that one that
   isn't of the form ends the program without waiting for more. */
static bool read_question(struct question *question)
{
    if (read_input(&question->letter, 1) == 0)
        return false;
    if (question->letter != 'V' && question->letter != 'S')
        malformed("it begins with neither V nor S");
    read_key_field(question);
    if (question->letter == 'V')
        read_signature_field(question);
    question->length = read_length();
    read_field(question->body, question->length);
    return true;
}

/* Signs the body with the key. */
static void put_signature(const char *folder, const struct question *question)
{
    unsigned char signature[SIGNATURE_BYTES];
    char text[SIGNATURE_CHARACTERS + 1];

    if (folder == NULL || folder[0] == '\0')
        fail(KEY_FAULT, question->key, "there is no such key: KERI_KEYS names no folder");
    sign_with(folder, question->key, question->body, question->length, signature);
    write_signature(signature, text);
    write_output(text, SIGNATURE_CHARACTERS);
}

void serve(const char *folder, const char *threads)
{
    struct question *question;

    set_threads(threads);
    while (read_question(question = room_for_question())) {
        if (question->letter == 'V') {
            give_out();
        } else {
            answer_all();
            put_signature(folder, question);
        }
    }
    answer_all();
}
