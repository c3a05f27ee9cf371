// POSIX threads with one thread, for `--single-thread`. A lock is always free, and taking it stores nothing; no thread is
// created; a call that waits for another thread traps.
#include <errno.h>
#include <pthread.h>
#include <semaphore.h>

#define UNUSED __attribute__((unused))

int pthread_mutex_init(pthread_mutex_t *m UNUSED, const pthread_mutexattr_t *a UNUSED) { return 0; }
int pthread_mutex_destroy(pthread_mutex_t *m UNUSED) { return 0; }
int pthread_mutex_lock(pthread_mutex_t *m UNUSED) { return 0; }
int pthread_mutex_trylock(pthread_mutex_t *m UNUSED) { return 0; }
int pthread_mutex_timedlock(pthread_mutex_t *m UNUSED, const struct timespec *t UNUSED) { return 0; }
int pthread_mutex_unlock(pthread_mutex_t *m UNUSED) { return 0; }
int pthread_mutex_consistent(pthread_mutex_t *m UNUSED) { return 0; }
int pthread_mutexattr_init(pthread_mutexattr_t *a UNUSED) { return 0; }
int pthread_mutexattr_destroy(pthread_mutexattr_t *a UNUSED) { return 0; }
int pthread_mutexattr_settype(pthread_mutexattr_t *a UNUSED, int type UNUSED) { return 0; }
int pthread_mutexattr_setpshared(pthread_mutexattr_t *a UNUSED, int shared UNUSED) { return 0; }
int pthread_mutexattr_setrobust(pthread_mutexattr_t *a UNUSED, int robust UNUSED) { return 0; }
int pthread_mutexattr_setprotocol(pthread_mutexattr_t *a UNUSED, int protocol UNUSED) { return 0; }

int pthread_rwlock_init(pthread_rwlock_t *l UNUSED, const pthread_rwlockattr_t *a UNUSED) { return 0; }
int pthread_rwlock_destroy(pthread_rwlock_t *l UNUSED) { return 0; }
int pthread_rwlock_rdlock(pthread_rwlock_t *l UNUSED) { return 0; }
int pthread_rwlock_wrlock(pthread_rwlock_t *l UNUSED) { return 0; }
int pthread_rwlock_tryrdlock(pthread_rwlock_t *l UNUSED) { return 0; }
int pthread_rwlock_trywrlock(pthread_rwlock_t *l UNUSED) { return 0; }
int pthread_rwlock_timedrdlock(pthread_rwlock_t *l UNUSED, const struct timespec *t UNUSED) { return 0; }
int pthread_rwlock_timedwrlock(pthread_rwlock_t *l UNUSED, const struct timespec *t UNUSED) { return 0; }
int pthread_rwlock_unlock(pthread_rwlock_t *l UNUSED) { return 0; }

int pthread_spin_init(pthread_spinlock_t *l UNUSED, int shared UNUSED) { return 0; }
int pthread_spin_destroy(pthread_spinlock_t *l UNUSED) { return 0; }
int pthread_spin_lock(pthread_spinlock_t *l UNUSED) { return 0; }
int pthread_spin_trylock(pthread_spinlock_t *l UNUSED) { return 0; }
int pthread_spin_unlock(pthread_spinlock_t *l UNUSED) { return 0; }

int pthread_cond_init(pthread_cond_t *c UNUSED, const pthread_condattr_t *a UNUSED) { return 0; }
int pthread_cond_destroy(pthread_cond_t *c UNUSED) { return 0; }
int pthread_cond_signal(pthread_cond_t *c UNUSED) { return 0; }
int pthread_cond_broadcast(pthread_cond_t *c UNUSED) { return 0; }
int pthread_cond_wait(pthread_cond_t *c UNUSED, pthread_mutex_t *m UNUSED) { __builtin_trap(); }
int pthread_cond_timedwait(pthread_cond_t *c UNUSED, pthread_mutex_t *m UNUSED, const struct timespec *t UNUSED) {
  return ETIMEDOUT;
}
int pthread_condattr_init(pthread_condattr_t *a UNUSED) { return 0; }
int pthread_condattr_destroy(pthread_condattr_t *a UNUSED) { return 0; }
int pthread_condattr_setpshared(pthread_condattr_t *a UNUSED, int shared UNUSED) { return 0; }
int pthread_condattr_setclock(pthread_condattr_t *a UNUSED, clockid_t clock_id UNUSED) { return 0; }

int pthread_create(pthread_t *t UNUSED, const pthread_attr_t *a UNUSED, void *(*run)(void *) UNUSED,
                   void *argument UNUSED) {
  return EAGAIN;
}
int pthread_join(pthread_t t UNUSED, void **result UNUSED) { return ESRCH; }
int pthread_detach(pthread_t t UNUSED) { return ESRCH; }
int pthread_attr_init(pthread_attr_t *a UNUSED) { return 0; }
int pthread_attr_destroy(pthread_attr_t *a UNUSED) { return 0; }
int pthread_atfork(void (*before)(void) UNUSED, void (*parent)(void) UNUSED, void (*child)(void) UNUSED) { return 0; }
pthread_t pthread_self(void) { return 1; }
int pthread_equal(pthread_t left, pthread_t right) { return left == right; }
_Noreturn void pthread_exit(void *result UNUSED) { __builtin_trap(); }

int pthread_once(pthread_once_t *once, void (*run)(void)) {
  if (*once == PTHREAD_ONCE_INIT) {
    *once = !PTHREAD_ONCE_INIT;
    run();
  }
  return 0;
}

// Values by key. Destructors of values would run at the end of a thread; the one thread ends with the run.
enum { KEYS = 64 };

static struct {
  int taken;
  const void *value;
} keys[KEYS];

int pthread_key_create(pthread_key_t *key, void (*destructor)(void *) UNUSED) {
  for (pthread_key_t k = 0; k < KEYS; k++)
    if (!keys[k].taken) {
      keys[k].taken = 1;
      keys[k].value = NULL;
      *key = k;
      return 0;
    }
  return EAGAIN;
}

int pthread_key_delete(pthread_key_t key) {
  if (key >= KEYS || !keys[key].taken) return EINVAL;
  keys[key].taken = 0;
  return 0;
}

void *pthread_getspecific(pthread_key_t key) {
  return key < KEYS && keys[key].taken ? (void *)keys[key].value : NULL;
}

int pthread_setspecific(pthread_key_t key, const void *value) {
  if (key >= KEYS || !keys[key].taken) return EINVAL;
  keys[key].value = value;
  return 0;
}

// Semaphores: a count in the first bytes. A wait at zero would never end.
static unsigned *count_of(sem_t *semaphore) { return (unsigned *)semaphore; }

int sem_init(sem_t *semaphore, int shared UNUSED, unsigned count) {
  *count_of(semaphore) = count;
  return 0;
}
int sem_destroy(sem_t *semaphore UNUSED) { return 0; }
int sem_post(sem_t *semaphore) {
  ++*count_of(semaphore);
  return 0;
}
int sem_wait(sem_t *semaphore) {
  if (*count_of(semaphore) == 0) __builtin_trap();
  --*count_of(semaphore);
  return 0;
}
int sem_trywait(sem_t *semaphore) {
  if (*count_of(semaphore) == 0) {
    errno = EAGAIN;
    return -1;
  }
  return sem_wait(semaphore);
}
int sem_getvalue(sem_t *restrict semaphore, int *restrict to) {
  *to = (int)*count_of(semaphore);
  return 0;
}
