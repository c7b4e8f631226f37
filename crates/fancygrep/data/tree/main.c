a fox in tree/main.c
