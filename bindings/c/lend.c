/* Narrows a pass. Prints the narrowed pass, and whether README's root signed it: lend < PASS. */
#include <clubpass.h>
#include <stdio.h>
#include <string.h>

int main(void) {
    static const uint8_t root[] = {0x00, 0x11, 0x22, 0x33, 0x44, 0x55, 0x66, 0x77,
                                   0x88, 0x99, 0xaa, 0xbb, 0xcc, 0xdd, 0xee, 0xff};
    static const char caveat[] = "kind = court";
    uint8_t text[CLUBPASS_MAX_TEXT + 1];
    clubpass pass = CLUBPASS_INIT;
    size_t len = fread(text, 1, sizeof text, stdin);
    if (len > 0 && text[len - 1] == '\n')
        len--;
    clubpass_fault fault = clubpass_read(text, len, &pass);
    if (fault == CLUBPASS_OK)
        fault = clubpass_narrow(&pass, (const uint8_t *)caveat, strlen(caveat));
    if (fault == CLUBPASS_OK)
        fault = clubpass_write(&pass, clubpass_form(&pass), text, sizeof text, &len);
    if (fault != CLUBPASS_OK) {
        fprintf(stderr, "fault %d\n", fault);
        return 1;
    }
    bool is_signed = clubpass_is_signed(&pass, root, sizeof root);
    printf("%.*s\n%s\n", (int)len, text, is_signed ? "signed" : "not signed");
    return 0;
}
