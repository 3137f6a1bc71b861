// Botan, by the calls that load a key or a request, and write it. (run.py says what a driver answers)
#include "driver.h"

#include <botan/data_src.h>
#include <botan/pkcs10.h>
#include <botan/pkcs8.h>
#include <botan/version.h>
#include <botan/x509_key.h>
#include <memory>

// Reads a document of a kind, and writes it anew.
static Botan::secure_vector<uint8_t> rewritten(const char *kind, size_t size) {
    Botan::DataSource_Memory source(document, size);
    if (!strcmp(kind, "request")) {
        auto written = Botan::PKCS10_Request(source).BER_encode();
        return {written.begin(), written.end()};
    }
    if (!strcmp(kind, "public")) {
        std::unique_ptr<Botan::Public_Key> key(Botan::X509::load_key(source));
        auto written = Botan::X509::BER_encode(*key);
        return {written.begin(), written.end()};
    }
    if (!strcmp(kind, "encrypted")) {
        Botan::PKCS8::load_key(source, "pkder");
        return {};
    }
    return Botan::PKCS8::BER_encode(*Botan::PKCS8::load_key(source));
}

int main() {
    size_t size;
    const char *kind;
    tell_about("Botan", Botan::short_version_cstr(), "PKCS8::load_key, X509::load_key, PKCS10_Request",
               "\"key\", \"request\", \"public\", \"encrypted\"");
    while ((kind = next_document(&size))) {
        try {
            auto written = rewritten(kind, size);
            tell(1, written.data(), written.size());
        } catch (const std::exception &) {
            tell(0, nullptr, 0);
        }
    }
    return 0;
}
