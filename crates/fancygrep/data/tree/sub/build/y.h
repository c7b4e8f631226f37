a fox in tree/sub/build/y.h
