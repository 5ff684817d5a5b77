#pragma once
#include <stddef.h>
typedef long ssize_t;
ssize_t write(int, const void *, size_t);
