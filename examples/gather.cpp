// Gathers the whole fields of a recorded stream, and files them: gather FRAMES OUT.anf
//
// FRAMES are RFC 4571's, a length of two octets and a packet. The first packet that can be read tells source and payload type, as in `fieldlist`.
#include "jibhotran.h"

#include <array>
#include <fstream>
#include <iostream>
#include <iterator>
#include <stdexcept>
#include <string>
#include <vector>

namespace {

using Octets = std::vector<std::uint8_t>;
using Answer = std::array<std::uint64_t, JIBHOTRAN_ANSWER>;

// A refusal as an exception.
void accept(std::uint8_t number, const char *what) {
    if (number != JIBHOTRAN_ACCEPTED) {
        throw std::runtime_error(std::string(what) + ": " + jibhotran_text(number));
    }
}

class Gatherer {
  public:
    // The store has room for any packet, to read the first; the fields take less.
    explicit Gatherer(std::ostream &out) : file(out), store(JIBHOTRAN_PACKET_CELLS), octets(JIBHOTRAN_FIELD_OCTETS) {
        accept(jibhotran_file_begin(octets.data(), octets.size(), answer.data(), answer.size()), "the file");
        put();
    }

    void arrive(const Octets &packet) {
        if (!opened && !open(packet)) {
            return;
        }
        const auto number = jibhotran_arrive(JIBHOTRAN_RFC8331, state.data(), state.size(), packet.data(), packet.size(), store.data(), store.size(),
                                             answer.data(), answer.size());
        if (number != JIBHOTRAN_ACCEPTED) {
            std::cerr << "a packet: " << jibhotran_text(number) << " (" << answer[0] << ")\n";
        } else if (answer[0] == JIBHOTRAN_WHOLE) {
            const auto field = jibhotran_field_arrived(answer.data());
            accept(jibhotran_file_write(field.timestamp, field.f, store.data(), field.cells, octets.data(), octets.size(), answer.data(), answer.size()),
                   "a field");
            put();
        }
    }

    void tell() const {
        if (opened) {
            const auto s = jibhotran_state_of(state.data());
            std::cout << "fresh=" << s.fresh << " late=" << s.late << " missing=" << s.missing << "\n";
        }
    }

  private:
    bool open(const Octets &packet) {
        if (jibhotran_read_strict(JIBHOTRAN_RFC8331, packet.data(), packet.size(), store.data(), store.size(), answer.data(), answer.size())) {
            return false;
        }
        const auto first = jibhotran_packet_of(answer.data());
        opened = jibhotran_open(first.source, first.payload_type, state.data(), state.size(), answer.data(), answer.size()) == JIBHOTRAN_ACCEPTED;
        return opened;
    }

    void put() { file.write(reinterpret_cast<const char *>(octets.data()), static_cast<std::streamsize>(answer[0])); }

    std::ostream &file;
    std::vector<std::uint16_t> store;
    Octets octets;
    std::array<std::uint64_t, JIBHOTRAN_STATE> state{};
    Answer answer{};
    bool opened = false;
};

} // namespace

int main(int argc, char **argv) {
    if (argc != 3) {
        std::cerr << "gather FRAMES OUT.anf\n";
        return 2;
    }
    std::ifstream frames(argv[1], std::ios::binary);
    std::ofstream file;
    if (frames) {
        file.open(argv[2], std::ios::binary);
    }
    if (!file.is_open()) {
        std::cerr << (frames ? argv[2] : argv[1]) << ": cannot be opened\n";
        return 1;
    }
    try {
        Gatherer gatherer(file);
        for (int high; (high = frames.get()) != std::char_traits<char>::eof();) {
            const int low = frames.get();
            Octets packet(low < 0 ? 0 : static_cast<std::size_t>(high) * 256 + static_cast<std::size_t>(low));
            // a vector without elements may have a null pointer, and the library wants none
            packet.reserve(1);
            if (low < 0 || !frames.read(reinterpret_cast<char *>(packet.data()), static_cast<std::streamsize>(packet.size()))) {
                break;
            }
            gatherer.arrive(packet);
        }
        gatherer.tell();
    } catch (const std::exception &e) {
        std::cerr << e.what() << "\n";
        return 1;
    }
    return file.flush() ? 0 : 1;
}
