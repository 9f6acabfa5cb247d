/* Mutexes and times of the installed headers, and the phaser: writers that a reader waits for without stopping them. */
#define _POSIX_C_SOURCE 200809L
#include <errno.h>
#include <sched.h>
#include <stdlib.h>
#include <time.h>

#include <hdr/hdr_thread.h>
#include <hdr/hdr_time.h>
#include <hdr/hdr_writer_reader_phaser.h>

struct hdr_mutex *hdr_mutex_alloc(void)
{
    return malloc(sizeof(struct hdr_mutex));
}

void hdr_mutex_free(struct hdr_mutex *mutex)
{
    free(mutex);
}

int hdr_mutex_init(struct hdr_mutex *mutex)
{
    return pthread_mutex_init(&mutex->_mutex, NULL);
}

void hdr_mutex_destroy(struct hdr_mutex *mutex)
{
    pthread_mutex_destroy(&mutex->_mutex);
}

void hdr_mutex_lock(struct hdr_mutex *mutex)
{
    pthread_mutex_lock(&mutex->_mutex);
}

void hdr_mutex_unlock(struct hdr_mutex *mutex)
{
    pthread_mutex_unlock(&mutex->_mutex);
}

void hdr_yield(void)
{
    sched_yield();
}

int hdr_usleep(unsigned int useconds)
{
    struct timespec t = {useconds / 1000000, (long)(useconds % 1000000) * 1000};

    return nanosleep(&t, NULL);
}

void hdr_gettime(hdr_timespec *t)
{
    clock_gettime(CLOCK_MONOTONIC, t);
}

void hdr_getnow(hdr_timespec *t)
{
    clock_gettime(CLOCK_REALTIME, t);
}

double hdr_timespec_as_double(const hdr_timespec *t)
{
    return (double)t->tv_sec + (double)t->tv_nsec / 1e9;
}

void hdr_timespec_from_double(hdr_timespec *t, double value)
{
    int64_t milliseconds = (int64_t)(value * 1000.0 + 0.5);

    t->tv_sec = (time_t)(milliseconds / 1000);
    t->tv_nsec = (long)(milliseconds % 1000) * 1000000;
}

/*
 * Each writer that enters adds 1 to `start_epoch`, whose sign is the phase, and 1 to the end of its phase when it leaves.
 * A reader turns the phase, and waits until as many have left the phase before as had entered it.
 */
int hdr_writer_reader_phaser_init(struct hdr_writer_reader_phaser *p)
{
    int error;

    if (p == NULL)
        return EINVAL;
    *p = (struct hdr_writer_reader_phaser){.odd_end_epoch = INT64_MIN, .reader_mutex = hdr_mutex_alloc()};
    if (p->reader_mutex == NULL)
        return ENOMEM;
    error = hdr_mutex_init(p->reader_mutex);
    if (error != 0)
        hdr_mutex_free(p->reader_mutex);
    return error;
}

void hdr_writer_reader_phaser_destroy(struct hdr_writer_reader_phaser *p)
{
    hdr_mutex_destroy(p->reader_mutex);
    hdr_mutex_free(p->reader_mutex);
}

int64_t hdr_phaser_writer_enter(struct hdr_writer_reader_phaser *p)
{
    return __atomic_fetch_add(&p->start_epoch, 1, __ATOMIC_SEQ_CST);
}

void hdr_phaser_writer_exit(struct hdr_writer_reader_phaser *p, int64_t critical_value_at_enter)
{
    __atomic_fetch_add(critical_value_at_enter < 0 ? &p->odd_end_epoch : &p->even_end_epoch, 1, __ATOMIC_SEQ_CST);
}

void hdr_phaser_reader_lock(struct hdr_writer_reader_phaser *p)
{
    hdr_mutex_lock(p->reader_mutex);
}

void hdr_phaser_reader_unlock(struct hdr_writer_reader_phaser *p)
{
    hdr_mutex_unlock(p->reader_mutex);
}

void hdr_phaser_flip_phase(struct hdr_writer_reader_phaser *p, int64_t sleep_time_ns)
{
    bool next_is_odd = __atomic_load_n(&p->start_epoch, __ATOMIC_SEQ_CST) >= 0;
    int64_t first = next_is_odd ? INT64_MIN : 0, entered;
    int64_t *end = next_is_odd ? &p->even_end_epoch : &p->odd_end_epoch;

    __atomic_store_n(next_is_odd ? &p->odd_end_epoch : &p->even_end_epoch, first, __ATOMIC_SEQ_CST);
    entered = __atomic_exchange_n(&p->start_epoch, first, __ATOMIC_SEQ_CST);
    while (__atomic_load_n(end, __ATOMIC_SEQ_CST) != entered) {
        if (sleep_time_ns <= 0)
            hdr_yield();
        else
            hdr_usleep((unsigned)(sleep_time_ns / 1000));
    }
}
