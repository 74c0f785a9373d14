// gemmi's two ways through a text behind C functions: the document that it reads, and its check alone.
#include <cstddef>
#include <exception>
#include <gemmi/cif.hpp>

extern "C" void *shim_read(const char *text, std::size_t length) {
    try {
        return new gemmi::cif::Document(gemmi::cif::read_memory(text, length, "bench"));
    } catch (std::exception &) {
        return nullptr;
    }
}

extern "C" void shim_free(void *document) { delete static_cast<gemmi::cif::Document *>(document); }

extern "C" int shim_check(const char *text, std::size_t length) {
    tao::pegtl::memory_input<> input(text, length, "bench");
    return gemmi::cif::check_syntax(input, nullptr) ? 1 : 0;
}
