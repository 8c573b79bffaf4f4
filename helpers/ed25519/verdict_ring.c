#include "verdict_ring.h"

#include <poll.h>
#include <pthread.h>
#include <sodium.h>
#include <stdbool.h>
#include <stdlib.h>
#include <string.h>
#include <unistd.h>

#include "input_output.h"

enum { SLOTS = 256, MOST_THREADS = 64, THREAD_STACK = 256 * 1024 };

/* The questions in a ring, by their numbers: those before `written` are answered, those from there to `claimed` are being
   verified, or are, and those from there to `read` wait for a thread. Any thread verifies, and one at a time writes the
   verdicts that are ready, in order. All but the bodies that are verified or read is touched under the lock. */
static struct {
    pthread_mutex_t lock;
    pthread_cond_t work, room;
    size_t written, claimed, read;
    bool is_writing;
    struct question slots[SLOTS];
} ring = {.lock = PTHREAD_MUTEX_INITIALIZER, .work = PTHREAD_COND_INITIALIZER, .room = PTHREAD_COND_INITIALIZER};

/* Of the thread that reads. */
static size_t wanted, threads;
static bool are_started;

void set_threads(const char *count)
{
    long processors = sysconf(_SC_NPROCESSORS_ONLN);
    size_t digits = count == NULL ? 0 : strspn(count, "0123456789");

    wanted = processors > 1 ? (size_t)processors - 1 : 0;
    if (wanted > MOST_THREADS)
        wanted = MOST_THREADS;
    if (count == NULL)
        return;
    if (digits == 0 || digits > 2 || count[digits] != '\0' || atoi(count) > MOST_THREADS)
        fail(WORDS, "KERI_THREADS", "it isn't a number from 0 to 64");
    wanted = (size_t)atoi(count);
}

static char verdict_of(const struct question *question)
{
    int refused = crypto_sign_verify_detached(question->signature, question->body, question->length, question->key_bytes);

    return refused == 0 ? 'Y' : 'N';
}

/* Takes the verdicts that are ready, in order; answers how many. */
static size_t take_ready(char verdicts[SLOTS])
{
    size_t count = 0;

    while (ring.written + count < ring.claimed && ring.slots[(ring.written + count) % SLOTS].verdict != 0) {
        verdicts[count] = ring.slots[(ring.written + count) % SLOTS].verdict;
        count++;
    }
    return count;
}

/* Writes the verdicts that are ready, in order, under the lock, which is let go meanwhile. Where they can't be written no
   other thread ends the program too: the one that reads does so once all are answered. */
static void write_ready(void)
{
    char verdicts[SLOTS];
    size_t count;

    if (ring.is_writing)
        return;
    ring.is_writing = true;
    while ((count = take_ready(verdicts)) > 0) {
        (void)pthread_mutex_unlock(&ring.lock);
        write_output(verdicts, count);
        (void)pthread_mutex_lock(&ring.lock);
        ring.written += count;
        (void)pthread_cond_signal(&ring.room);
    }
    ring.is_writing = false;
}

/* Verifies the first question that waits, under the lock, which is let go meanwhile. */
static void verify_next(void)
{
    struct question *question = &ring.slots[ring.claimed++ % SLOTS];

    (void)pthread_mutex_unlock(&ring.lock);
    char verdict = verdict_of(question);
    (void)pthread_mutex_lock(&ring.lock);
    question->verdict = verdict;
    write_ready();
}

static void *work(void *unused)
{
    (void)pthread_mutex_lock(&ring.lock);
    for (;;) {
        while (ring.claimed == ring.read)
            (void)pthread_cond_wait(&ring.work, &ring.lock);
        verify_next();
    }
    return unused;
}

/* Starts the threads at the first call, or as many as there may be. */
static void start_threads(void)
{
    pthread_attr_t attributes;
    pthread_t thread;

    if (are_started || wanted == 0)
        return;
    are_started = true;
    if (pthread_attr_init(&attributes) != 0)
        return;
    if (pthread_attr_setstacksize(&attributes, THREAD_STACK) == 0
        && pthread_attr_setdetachstate(&attributes, PTHREAD_CREATE_DETACHED) == 0)
        while (threads < wanted && pthread_create(&thread, &attributes, work, NULL) == 0)
            threads++;
    (void)pthread_attr_destroy(&attributes);
}

/* Waits until at most so many questions wait for their answers, and verifies meanwhile. */
static void wait_until(size_t most)
{
    (void)pthread_mutex_lock(&ring.lock);
    while (ring.read - ring.written > most)
        if (ring.claimed < ring.read)
            verify_next();
        else
            (void)pthread_cond_wait(&ring.room, &ring.lock);
    (void)pthread_mutex_unlock(&ring.lock);
}

struct question *room_for_question(void)
{
    wait_until(SLOTS - 1);
    return &ring.slots[ring.read % SLOTS];
}

/* Whether there is more input. */
static bool more_waits(void)
{
    struct pollfd waits = {.fd = STDIN_FILENO, .events = POLLIN};

    return poll(&waits, 1, 0) == 1 && (waits.revents & POLLIN) != 0;
}

void give_out(void)
{
    bool more = wanted > 0 && more_waits();

    if (more)
        start_threads();
    (void)pthread_mutex_lock(&ring.lock);
    ring.slots[ring.read++ % SLOTS].verdict = 0;
    if (threads == 0 || (!more && ring.written + 1 == ring.read))
        verify_next();
    else
        (void)pthread_cond_signal(&ring.work);
    (void)pthread_mutex_unlock(&ring.lock);
}

void answer_all(void)
{
    wait_until(0);
}
