/* Checks against OpenSSL: signatures made on our padded blocks, messages stripped by us, and the
 * response that 003 prints. */
#ifndef RSA_H
#define RSA_H

/* The library's name and version. */
const char *rsa_library(void);
void check_rsa(void);

#endif
