/* Says the name of a module's first function: cc examples/first.c $(pkg-config --cflags --libs wakemiono) */
#include <stdio.h>
#include <wakemiono.h>

int main(void) {
    static uint8_t module[1 << 20];
    size_t length = fread(module, 1, sizeof module, stdin);
    if (!feof(stdin)) {
        fputs("not all of the module was read: it needs a larger buffer, or could not be read\n", stderr);
        return 2;
    }
    wm_answer a = wm_function_name_in(module, length, 0);
    if (a.kind == WM_FOUND) {
        /* These are the module's own bytes, UTF-8 with any control characters: escape them for a terminal or a log. */
        fwrite(module + a.offset, 1, a.length, stdout);
        putchar('\n');
    }
    if (a.kind == WM_NONE) puts("function 0 has no name");
    if (a.kind == WM_REFUSED) printf("refused %u at byte %llu\n", a.code, (unsigned long long)a.offset);
    return a.kind == WM_REFUSED;
}
