#pragma once
void (*signal(int, void (*)(int)))(int);
