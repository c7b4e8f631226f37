#include <fancy.h>
#include <stdio.h>

int main(void)
{
    struct fancy_program price = FANCY_NOTHING;
    struct fancy_options options = fancy_default_options();
    size_t at[2];
    fancy_compile_pattern("(?<=\\$)[0-9]+", 13, &options, &price);
    if (fancy_find(&price, "cost $42", 8, &options, at, 2).code == FANCY_OK)
        printf("%zu..%zu\n", at[0], at[1]);
    fancy_free(&price);
}
