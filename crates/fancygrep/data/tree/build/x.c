a fox in tree/build/x.c
