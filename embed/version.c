// The version of the library: KATARA_VERSION of katara.h, which the build passes (WebAssembly has no headers of a C library here). It is
// trusted: no proof covers it.
#ifdef __wasm__
__attribute__((export_name("katara_version")))
#endif
unsigned katara_version(unsigned char *out, __SIZE_TYPE__ room, __SIZE_TYPE__ *length) {
    static const char version[] = KATARA_VERSION;
    *length = sizeof version - 1;
    if (*length > room) return 2; // KATARA_ROOM
    for (__SIZE_TYPE__ i = 0; i < *length; i += 1) out[i] = (unsigned char)version[i];
    return 0;
}
