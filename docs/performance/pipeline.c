/* The pipeline of `ppd drill 7` with POSIX threads: four threads, three channels of capacity 4, 8,000 values through
 * each. A channel is a ring under a mutex with two conditions. It prints what the last process prints. */
#include <pthread.h>
#include <stdio.h>

enum { NUMBER = 7, STAGES = 3, TURNS = 8000, CAPACITY = 4 };

struct channel {
    pthread_mutex_t lock;
    pthread_cond_t sent, received;
    long long values[CAPACITY];
    long sends, receives;
};

static struct channel channels[STAGES];
static long long total;

static void channel_send(struct channel *c, long long value) {
    pthread_mutex_lock(&c->lock);
    while (c->sends == c->receives + CAPACITY) pthread_cond_wait(&c->received, &c->lock);
    c->values[c->sends++ % CAPACITY] = value;
    pthread_cond_signal(&c->sent);
    pthread_mutex_unlock(&c->lock);
}

static long long channel_receive(struct channel *c) {
    pthread_mutex_lock(&c->lock);
    while (c->sends == c->receives) pthread_cond_wait(&c->sent, &c->lock);
    long long value = c->values[c->receives++ % CAPACITY];
    pthread_cond_signal(&c->received);
    pthread_mutex_unlock(&c->lock);
    return value;
}

static void *run(void *argument) {
    long k = (long)argument;
    long long sum = 0;
    for (int i = 0; i < TURNS; i++) {
        long long value = k == 0 ? i * 3 + NUMBER : channel_receive(&channels[k - 1]);
        if (k < STAGES) channel_send(&channels[k], k == 0 ? value : value + k);
        else sum += value;
    }
    if (k == STAGES) {
        total = sum;
        printf("%lld\n", sum);
    }
    return NULL;
}

int main(void) {
    pthread_t threads[STAGES + 1];
    for (int k = 0; k < STAGES; k++) {
        pthread_mutex_init(&channels[k].lock, NULL);
        pthread_cond_init(&channels[k].sent, NULL);
        pthread_cond_init(&channels[k].received, NULL);
    }
    for (long k = 0; k <= STAGES; k++) pthread_create(&threads[k], NULL, run, (void *)k);
    for (int k = 0; k <= STAGES; k++) pthread_join(threads[k], NULL);
    return total == 96068000 ? 0 : 1;
}
