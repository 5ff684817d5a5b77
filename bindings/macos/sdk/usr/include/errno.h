/* What dist/ uses of macOS' headers, written from its documented interfaces, since Apple's own can't be copied here. */
#pragma once
int *__error(void);
#define errno (*__error())
