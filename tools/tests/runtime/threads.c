#include "check.h"
#include <errno.h>
#include <pthread.h>
#include <semaphore.h>

static int calls;
static void once(void) { calls++; }

int main(void) {
  pthread_mutex_t mutex = PTHREAD_MUTEX_INITIALIZER;
  pthread_rwlock_t lock = PTHREAD_RWLOCK_INITIALIZER;
  pthread_spinlock_t spin;
  pthread_cond_t condition;
  note(pthread_mutex_lock(&mutex));
  note(pthread_mutex_unlock(&mutex));
  note(pthread_mutex_trylock(&mutex));
  note(pthread_mutex_unlock(&mutex));
  note(pthread_rwlock_rdlock(&lock));
  note(pthread_rwlock_unlock(&lock));
  note(pthread_rwlock_trywrlock(&lock));
  note(pthread_rwlock_unlock(&lock));
  note(pthread_spin_init(&spin, 0));
  note(pthread_spin_lock(&spin));
  note(pthread_spin_unlock(&spin));
  note(pthread_cond_init(&condition, NULL));
  note(pthread_cond_signal(&condition));
  note(pthread_cond_broadcast(&condition));
  note(pthread_cond_destroy(&condition));
  print_sum();
  pthread_once_t control = PTHREAD_ONCE_INIT;
  note(pthread_once(&control, once));
  note(pthread_once(&control, once));
  note(calls);
  pthread_key_t first, second;
  note(pthread_key_create(&first, NULL));
  note(pthread_key_create(&second, NULL));
  note(first != second);
  note(pthread_setspecific(first, &first));
  note(pthread_getspecific(first) == &first);
  note(pthread_getspecific(second) == NULL);
  note(pthread_key_delete(first));
  note(pthread_setspecific(first, &first));
  note(pthread_equal(pthread_self(), pthread_self()) != 0);
  print_sum();
  sem_t semaphore;
  int value;
  note(sem_init(&semaphore, 0, 1));
  note(sem_wait(&semaphore));
  note(sem_trywait(&semaphore));
  note(errno);
  note(sem_post(&semaphore));
  note(sem_getvalue(&semaphore, &value));
  note(value);
  note(sem_destroy(&semaphore));
  print_sum();
  return 0;
}
