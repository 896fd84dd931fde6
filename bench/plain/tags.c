/* The same tags by OpenSSL: `tags LENGTH COUNT`. */
#include <openssl/evp.h>
#include <openssl/hmac.h>
#include <stdio.h>
#include <stdlib.h>
#include <string.h>

static unsigned char message[65536];

int main(int count, char **words) {
    unsigned char key[32], tag[32] = {0};
    unsigned int length = 0;
    if (count != 3) return 2;
    memset(key, 7, sizeof key);
    for (long i = atol(words[2]); i > 0; i--) {
        if (!HMAC(EVP_sha256(), key, sizeof key, message, atol(words[1]), tag, &length)) return 1;
        memcpy(message, tag, sizeof tag);
    }
    printf("%d\n", tag[0]);
    return 0;
}
