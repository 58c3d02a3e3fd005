// What the parts of the C library of the page share.
typedef unsigned long long u64;
typedef unsigned __int128 u128;
typedef unsigned long size_t;
typedef long ssize_t;
typedef long ptrdiff_t;
// A function of the page.
#define IMPORT(name) __attribute__((import_module("web"), import_name(#name)))
// A function that the page may call.
#define EXPORT(name) __attribute__((export_name(#name)))
