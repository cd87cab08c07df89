// Reads an input of blockcheck, calls blockcheck_verdicts on its two texts, and writes the lines that blockcheck would write.
// With room that is too short by one number it must answer 17 and leave the room as it was.
#include "blockcheck.h"

#include <cstdio>
#include <iostream>
#include <iterator>
#include <string>
#include <vector>

static const std::size_t text_limit = 65535;

static const std::uint8_t *bytes(const std::string &text) {
    return reinterpret_cast<const std::uint8_t *>(text.data());
}

static std::uint32_t call(const std::string &description, const std::string &program, std::vector<std::uint32_t> &room) {
    return blockcheck_verdicts(bytes(description), description.size(), bytes(program), program.size(), room.data(), room.size());
}

static std::string place(std::uint32_t number) {
    if (number == BLOCKCHECK_WHOLE_MEMORY) return "memory";
    static const char *const banks[] = {"r", "rr", "p", "rp"};
    return banks[number / 32] + std::to_string(number % 32);
}

static void write(const std::uint32_t *row) {
    static const char *const kinds[] = {"kept", "flow", "anti", "output", "memory", "unplaced"};
    std::printf("block %u %s", row[0], kinds[row[1]]);
    if (row[1] == BLOCKCHECK_UNPLACED) std::printf(" %u", row[3]);
    else if (row[1] != BLOCKCHECK_KEPT) std::printf(" %s %u %u needs %u", place(row[2]).c_str(), row[3], row[4], row[5]);
    std::printf("\n");
}

// Where the first line `program` begins; npos where there is none.
static std::size_t divider(const std::string &input) {
    for (std::size_t at = 0; at < input.size();) {
        std::size_t end = input.find('\n', at);
        if (end == std::string::npos) end = input.size();
        if (input.compare(at, end - at, "program") == 0) return at;
        at = end + 1;
    }
    return std::string::npos;
}

static bool short_room_is_refused(const std::string &description, const std::string &program, std::size_t needed) {
    std::vector<std::uint32_t> room(needed - 1, 77);
    if (call(description, program, room) != 17) return false;
    for (std::uint32_t number : room) if (number != 77) return false;
    return true;
}

int main() {
    const std::string input((std::istreambuf_iterator<char>(std::cin)), std::istreambuf_iterator<char>());
    const std::size_t at = divider(input);
    if (at == std::string::npos) {
        std::printf("refused %d\n", input.size() > text_limit ? 5 : 1);
        return 0;
    }
    const std::string description = input.substr(0, at);
    const std::string program = at + 8 < input.size() ? input.substr(at + 8) : "";
    std::vector<std::uint32_t> room(BLOCKCHECK_ROOM + 3, 77);
    const std::uint32_t answer = call(description, program, room);
    if (answer != 0) {
        for (std::uint32_t number : room) if (number != 77) return 1;
        std::printf("refused %u\n", answer);
        return 0;
    }
    const std::size_t needed = 1 + BLOCKCHECK_VERDICT * room[0];
    for (std::size_t i = needed; i < room.size(); ++i) if (room[i] != 77) return 1;
    if (!short_room_is_refused(description, program, needed)) return 1;
    for (std::size_t i = 1; i < needed; i += BLOCKCHECK_VERDICT) write(&room[i]);
    return 0;
}
