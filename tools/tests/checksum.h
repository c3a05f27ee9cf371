// Included before a program of csmith: it prints its checksum by print_i64, natively and in hippo, and nothing else.
#include <hippo.h>
#include <stdio.h>
#define printf(...) ((void)0)
#include "csmith.h"
#define platform_main_end(checksum, flag) print_i64(checksum)
