// What GDBM's configure finds out, and the version that it writes into gdbm.h.
#define GDBM_THREAD_LOCAL __thread
#define HAVE_FTRUNCATE 1
#define HAVE_FSYNC 1
#define HAVE_MMAP 1
#define HAVE_SYS_FILE_H 1
#define HAVE_STRUCT_STAT_ST_MTIM 1
#define PACKAGE "gdbm"
#define PACKAGE_VERSION "1.24"
#define SIZEOF_OFF_T 8
