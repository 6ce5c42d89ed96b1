#include <plokamyr.h>
#include <stdio.h>

int main(void) {
    for (uint64_t vl = 128; vl <= 512; vl *= 4) {
        uint16_t title[13] = {0xC9, 't', 'u', 'd', 'e', 's', ' ', 0xE0, ' ', 'N', 'o', 0xEB, 'l'}; /* Études à Noël */
        enum plokamyr_reply reply = plokamyr_fold(title, 13, vl);
        printf("%d bits: reply %d, ", (int)vl, (int)reply);
        for (int i = 0; i < 13; i++) putchar(title[i]);
        putchar('\n');
    }
}
