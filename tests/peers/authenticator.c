/* A security key in software, as the library that ssh and ssh-keygen load to enroll keys and to sign: `-w`,
   SecurityKeyProvider and SSH_SK_PROVIDER name it. The interface is OpenSSH's sk-api.h, and what is signed stands in
   PROTOCOL.u2f. The handle of a key is the private key itself, in DER.

   AUTHENTICATOR  what there is of touch and pin, such as "touch pin":
                  touch   somebody touches it as soon as it asks for that
                  pin     it verifies its user by the PIN 1234; else it verifies nobody, and says so in what it signs */
#include <openssl/core_names.h>
#include <openssl/ec.h>
#include <openssl/evp.h>
#include <openssl/sha.h>
#include <openssl/x509.h>
#include <stddef.h>
#include <stdint.h>
#include <stdlib.h>
#include <string.h>

enum { VERSION = 0x000a0000 };
enum { PRESENCE = 0x01, VERIFICATION = 0x04 };
enum { ECDSA = 0, ED25519 = 1 };
enum { GENERAL = -1, UNSUPPORTED = -2, PIN_REQUIRED = -3 };
enum { POINT = 65, RAW_KEY = 32, RAW_SIGNATURE = 64, COUNTER = 7 };

struct sk_enroll_response {
    uint8_t flags;
    uint8_t *public_key;
    size_t public_key_len;
    uint8_t *key_handle;
    size_t key_handle_len;
    uint8_t *signature;
    size_t signature_len;
    uint8_t *attestation_cert;
    size_t attestation_cert_len;
    uint8_t *authdata;
    size_t authdata_len;
};

struct sk_sign_response {
    uint8_t flags;
    uint32_t counter;
    uint8_t *sig_r;
    size_t sig_r_len;
    uint8_t *sig_s;
    size_t sig_s_len;
};

struct sk_option;
struct sk_resident_key;

static int has(const char *what) {
    const char *found = getenv("AUTHENTICATOR");
    return found && strstr(found, what);
}

/* What keeps it from doing what the flags ask for, or 0. */
static int fault_of(uint8_t flags, const char *pin) {
    if (flags & VERIFICATION && has("pin") && (!pin || strcmp(pin, "1234"))) return PIN_REQUIRED;
    return flags & PRESENCE && !has("touch") ? GENERAL : 0;
}

/* The flags of what it signs: somebody was there, and who it was. */
static uint8_t flags_of(uint8_t asked) { return (asked & PRESENCE) | (has("pin") ? asked & VERIFICATION : 0); }

uint32_t sk_api_version(void) { return VERSION; }

int sk_load_resident_keys(const char *pin, struct sk_option **options, struct sk_resident_key ***keys, size_t *count) {
    return UNSUPPORTED;
}

static int put_public_key(struct sk_enroll_response *made, EVP_PKEY *key, uint32_t algorithm) {
    made->public_key_len = algorithm == ECDSA ? POINT : RAW_KEY;
    made->public_key = calloc(1, made->public_key_len);
    if (!made->public_key) return 0;
    if (algorithm == ED25519) return EVP_PKEY_get_raw_public_key(key, made->public_key, &made->public_key_len);
    return EVP_PKEY_get_octet_string_param(key, OSSL_PKEY_PARAM_PUB_KEY, made->public_key, POINT, NULL);
}

static int put_handle(struct sk_enroll_response *made, EVP_PKEY *key) {
    int length = i2d_PrivateKey(key, &made->key_handle);
    made->key_handle_len = length > 0 ? length : 0;
    /* The attestation, which nobody looks at. */
    made->signature_len = 1;
    made->signature = calloc(1, made->signature_len);
    return length > 0 && made->signature;
}

int sk_enroll(uint32_t algorithm, const uint8_t *challenge, size_t challenge_length, const char *application,
              uint8_t flags, const char *pin, struct sk_option **options, struct sk_enroll_response **response) {
    int fault = fault_of(flags, pin);
    if (fault) return fault;
    if (algorithm != ECDSA && algorithm != ED25519) return UNSUPPORTED;
    EVP_PKEY *key = algorithm == ECDSA ? EVP_EC_gen("P-256") : EVP_PKEY_Q_keygen(NULL, NULL, "ED25519");
    *response = calloc(1, sizeof **response);
    int is_made = key && *response && put_public_key(*response, key, algorithm) && put_handle(*response, key);
    EVP_PKEY_free(key);
    if (!is_made) return GENERAL;
    (*response)->flags = flags;
    return 0;
}

/* What is signed: the application's digest, the flags, the counter, and the message's digest. */
enum { SIGNED = 2 * SHA256_DIGEST_LENGTH + 5 };

static void put_signed(uint8_t *text, const char *application, uint8_t flags, const uint8_t *message, size_t length) {
    const uint8_t middle[] = {flags, 0, 0, 0, COUNTER};
    SHA256((const uint8_t *)application, strlen(application), text);
    memcpy(text + SHA256_DIGEST_LENGTH, middle, sizeof middle);
    SHA256(message, length, text + SHA256_DIGEST_LENGTH + sizeof middle);
}

static int put_number(const BIGNUM *number, uint8_t **bytes, size_t *length) {
    *length = BN_num_bytes(number);
    *bytes = calloc(1, *length);
    return *bytes && BN_bn2bin(number, *bytes) == (int)*length;
}

/* Both numbers of a signature in DER. */
static int put_numbers(struct sk_sign_response *made, const uint8_t *der, size_t length) {
    ECDSA_SIG *both = d2i_ECDSA_SIG(NULL, &der, length);
    int is_put = both && put_number(ECDSA_SIG_get0_r(both), &made->sig_r, &made->sig_r_len)
                 && put_number(ECDSA_SIG_get0_s(both), &made->sig_s, &made->sig_s_len);
    ECDSA_SIG_free(both);
    return is_put;
}

static int put_whole(struct sk_sign_response *made, const uint8_t *signature) {
    made->sig_r_len = RAW_SIGNATURE;
    made->sig_r = malloc(RAW_SIGNATURE);
    if (made->sig_r) memcpy(made->sig_r, signature, RAW_SIGNATURE);
    return made->sig_r != NULL;
}

static int put_signature(struct sk_sign_response *made, EVP_PKEY *key, const uint8_t *text) {
    uint8_t signature[128];
    size_t length = sizeof signature;
    int is_curve = EVP_PKEY_get_base_id(key) == EVP_PKEY_EC;
    EVP_MD_CTX *context = EVP_MD_CTX_new();
    int is_signed = context && EVP_DigestSignInit(context, NULL, is_curve ? EVP_sha256() : NULL, NULL, key) == 1
                    && EVP_DigestSign(context, signature, &length, text, SIGNED) == 1;
    EVP_MD_CTX_free(context);
    return is_signed && (is_curve ? put_numbers(made, signature, length) : put_whole(made, signature));
}

int sk_sign(uint32_t algorithm, const uint8_t *message, size_t length, const char *application, const uint8_t *handle,
            size_t handle_length, uint8_t flags, const char *pin, struct sk_option **options,
            struct sk_sign_response **response) {
    uint8_t text[SIGNED];
    int fault = fault_of(flags, pin);
    if (fault) return fault;
    EVP_PKEY *key = d2i_AutoPrivateKey(NULL, &handle, handle_length);
    put_signed(text, application, flags_of(flags), message, length);
    *response = calloc(1, sizeof **response);
    int is_made = key && *response && put_signature(*response, key, text);
    EVP_PKEY_free(key);
    if (!is_made) return GENERAL;
    (*response)->flags = flags_of(flags);
    (*response)->counter = COUNTER;
    return 0;
}
