/* What QEMU's file of this name brings that the glue uses. */
#include <stdbool.h>
#include <stdint.h>
#include <stdio.h>
#include <stdlib.h>
#include <string.h>

void *g_memdup2(const void *bytes, size_t size);
void g_free(void *bytes);
