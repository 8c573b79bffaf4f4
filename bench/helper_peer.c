/* What bench/helper times. `loop FILE` reads a file of verdict questions, and has libsodium verify each signature, one
   after the other. `child FILE HELPER N` starts the helper, and once it has answered the first question asks it all of
   them, N ahead of the answers: with 1 each when the one before is answered. Both print the seconds that all verdicts took. One that isn't yes ends
   them. */
#define _GNU_SOURCE
#include <fcntl.h>
#include <sodium.h>
#include <stdio.h>
#include <stdlib.h>
#include <string.h>
#include <sys/stat.h>
#include <time.h>
#include <unistd.h>

#include "input_output.h"
#include "primitives.h"

enum { KEY = 1, SIGNATURE = KEY + KEY_CHARACTERS, LENGTH = SIGNATURE + SIGNATURE_CHARACTERS, BODY = LENGTH + 8 };

struct question {
    const char *text;
    size_t length;
    unsigned char key[KEY_BYTES], signature[SIGNATURE_BYTES];
};

static void or_end(int holds, const char *what)
{
    if (!holds) {
        perror(what);
        exit(1);
    }
}

static double seconds(void)
{
    struct timespec now;

    or_end(clock_gettime(CLOCK_MONOTONIC, &now) == 0, "clock");
    return (double)now.tv_sec + (double)now.tv_nsec / 1e9;
}

/* The whole file, with a NUL behind. */
static char *content(const char *path, size_t *size)
{
    struct stat found;
    int file = open(path, O_RDONLY | O_CLOEXEC);
    char *text;

    or_end(file >= 0 && fstat(file, &found) == 0, path);
    *size = (size_t)found.st_size;
    text = malloc(*size + 1);
    or_end(text != NULL && read_whole(file, text, *size) == (ssize_t)*size, path);
    text[*size] = '\0';
    close(file);
    return text;
}

/* Reads the question that begins at the text. */
static struct question question_at(const char *text)
{
    struct question question = {.text = text};
    char digits[9] = "";

    or_end(text[0] == 'V' && read_key(text + KEY, question.key) && read_signature(text + SIGNATURE, question.signature), "question");
    memcpy(digits, text + LENGTH, 8);
    question.length = BODY + strtoul(digits, NULL, 16);
    return question;
}

static struct question *questions_of(const char *text, size_t size, size_t *count)
{
    struct question *questions = NULL;

    *count = 0;
    for (size_t place = 0; place < size; place += questions[(*count)++].length) {
        questions = realloc(questions, (*count + 1) * sizeof *questions);
        or_end(questions != NULL && place + BODY <= size, "questions");
        questions[*count] = question_at(text + place);
    }
    return questions;
}

static void loop(const struct question *questions, size_t count)
{
    for (const struct question *asked = questions; asked < questions + count; asked++) {
        const unsigned char *body = (const unsigned char *)asked->text + BODY;
        or_end(crypto_sign_verify_detached(asked->signature, body, asked->length - BODY, asked->key) == 0, "verdict");
    }
}

/* Starts the helper, with the ends of its pipes that are this program's. */
static void start(const char *helper, int *to, int *from)
{
    int asked[2], answered[2];

    or_end(pipe2(asked, O_CLOEXEC) == 0 && pipe2(answered, O_CLOEXEC) == 0, "pipe");
    pid_t child = fork();
    or_end(child >= 0, "fork");
    if (child == 0) {
        or_end(dup2(asked[0], STDIN_FILENO) >= 0 && dup2(answered[1], STDOUT_FILENO) >= 0, "dup2");
        execl(helper, helper, "rehearse", (char *)NULL);
        or_end(0, helper);
    }
    close(asked[0]);
    close(answered[1]);
    *to = asked[1];
    *from = answered[0];
}

/* Asks the questions, so many of which wait for their answers. */
static void ask(const struct question *questions, size_t count, size_t ahead, int to, int from)
{
    size_t asked = 0;

    for (size_t answered = 0; answered < count; answered++) {
        char answer = 'N';
        for (; asked < count && asked < answered + ahead; asked++)
            or_end(write_whole(to, questions[asked].text, questions[asked].length), "question");
        or_end(read_whole(from, &answer, 1) == 1 && answer == 'Y', "verdict");
    }
}

int main(int words, char **word)
{
    size_t size, count;
    int to, from;

    or_end((words == 3 && strcmp(word[1], "loop") == 0) || (words == 5 && strcmp(word[1], "child") == 0), "words");
    or_end(sodium_init() >= 0, "libsodium");
    char *text = content(word[2], &size);
    struct question *questions = questions_of(text, size, &count);
    if (words == 5) {
        start(word[3], &to, &from);
        ask(questions, 1, 1, to, from);
    }
    double begun = seconds();
    if (words == 5)
        ask(questions, count, strtoul(word[4], NULL, 10), to, from);
    else
        loop(questions, count);
    printf("%.6f\n", seconds() - begun);
    free(questions);
    free(text);
    return 0;
}
