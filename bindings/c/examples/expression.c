/* Matches two datagrams with a filter expression, or prints the place of its error, with status 2: expression EXPRESSION */
#include <etherparse.h>
#include <stdio.h>
#include <string.h>

/* Prints characters of a text, with a space for each ASCII control character. */
static void print(const char *text, size_t len) {
    for (size_t i = 0; i < len; i++) putchar((unsigned char)text[i] < 32 || text[i] == 127 ? ' ' : text[i]);
}

/* Prints where the text is wrong, and why; of a text that is too long only why. */
static int wrong(const char *text, const struct etherparse_filter_error *error) {
    char why[ETHERPARSE_REASON_TEXT_MAX];
    size_t written;
    if (etherparse_filter_error_text(error->kind, why, sizeof why, &written) != ETHERPARSE_OK) return 1;
    if (error->kind == ETHERPARSE_FILTER_LONG) {
        puts(why);
        return 2;
    }
    print(text + error->start, error->end - error->start);
    printf("%s%s\n  ", error->start < error->end ? ": " : "", why);
    print(text, strlen(text));
    printf("\n  %*s\n", (int)error->start + 1, "^");
    return 2;
}

int main(int count, char **words) {
    const char *text = count == 2 ? words[1] : "";
    const struct etherparse_route route = {
        .version = 4, .hop_limit = 64, .ipv4_source = {192, 168, 1, 1}, .ipv4_destination = {192, 168, 1, 2}};
    const struct etherparse_route other = {
        .version = 4, .hop_limit = 64, .ipv4_source = {192, 168, 1, 1}, .ipv4_destination = {192, 168, 1, 3}};
    uint8_t packet[64], matches;
    size_t len;
    struct etherparse_filter *filter;
    struct etherparse_filter_error error;
    switch (etherparse_filter_new(text, strlen(text), &filter, &error)) {
    case ETHERPARSE_OK:
        break;
    case ETHERPARSE_REFUSED:
        return wrong(text, &error);
    default:
        return 1;
    }
    for (int i = 0; i < 2; i++) {
        if (etherparse_build_udp(i ? &other : &route, 40000, 53, NULL, 0, packet, sizeof packet, &len) != ETHERPARSE_OK
            || etherparse_filter_matches(filter, ETHERPARSE_ENTRY_IP, 0, packet, len, (uint32_t)len, &matches)
                   != ETHERPARSE_OK)
            return 1;
        printf("to 192.168.1.%d: %s\n", packet[19], matches ? "matches" : "does not match");
    }
    etherparse_filter_free(filter);
    return 0;
}
