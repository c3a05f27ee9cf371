// The pool of examples/from_c/store.c for a native build, as `tools/lower --pool` makes it.
#include <hippo.h>
#include <pool.h>

static _Alignas(4096) unsigned char bytes[1 << 16];
static struct hippo_file file;

struct hippo_pool hippo_pools[] = {{"store.pool", bytes, sizeof bytes, &file}};
const unsigned long hippo_pool_count = 1;
