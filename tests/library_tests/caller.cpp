// Calls the library from C++, as a program of that language does: parts in a vector, and texts in strings. tests/test-library compares
// what it prints with what the caller in C prints.
//
//     caller-in-cpp SET [SET]    prints the answer of each call for the set, or its refusal; then the answer of comparing the two sets
#include <tigercanon.h>

#include <cstdio>
#include <fstream>
#include <iostream>
#include <iterator>
#include <string>
#include <vector>

namespace {

std::string bytes_of(const char *name)
{
    std::ifstream file(name, std::ios::binary);
    return std::string(std::istreambuf_iterator<char>(file), std::istreambuf_iterator<char>());
}

// The parts of a set of one file.
std::vector<tigercanon_part> parts_of(const std::string &bytes)
{
    return {tigercanon_part{reinterpret_cast<const std::uint8_t *>(bytes.data()), bytes.size()}};
}

// Prints the answer if there is one, or else the refusal.
void print(std::uint8_t status, const tigercanon_fault &fault, const std::string &answer)
{
    char line[TIGERCANON_LINE];
    tigercanon_line(&fault, line);
    std::cout << (status > TIGERCANON_DIFFERENT ? std::string(line) + "\n" : answer);
}

// The text, which is freed.
std::string taken(tigercanon_text &text)
{
    const std::string bytes(reinterpret_cast<const char *>(text.bytes), text.length);
    tigercanon_free(&text);
    return bytes;
}

std::string digits_of(const tigercanon_hash &hash)
{
    std::string digits;
    for (const std::uint8_t byte : hash.bytes) {
        char two[3];
        std::snprintf(two, sizeof two, "%02x", static_cast<unsigned>(byte));
        digits += two;
    }
    return digits + "\n";
}

} // namespace

int main(int count, char **words)
{
    if (count < 2) {
        return 2;
    }
    const std::string first = bytes_of(words[1]), second = bytes_of(words[count - 1]);
    const std::vector<tigercanon_part> parts = parts_of(first), others = parts_of(second);
    tigercanon_fault fault;
    tigercanon_hash hash = {};
    tigercanon_text text = TIGERCANON_NO_TEXT;
    std::uint8_t status = tigercanon_check(parts.data(), parts.size(), &fault);
    print(status, fault, "accepted\n");
    status = tigercanon_respell(parts.data(), parts.size(), &text, &fault);
    print(status, fault, taken(text));
    status = tigercanon_normalise(parts.data(), parts.size(), true, false, &text, &fault);
    print(status, fault, taken(text));
    status = tigercanon_fingerprint(parts.data(), parts.size(), false, true, &hash, &fault);
    print(status, fault, digits_of(hash));
    status = tigercanon_compare(parts.data(), parts.size(), others.data(), others.size(), false, false, &fault);
    print(status, fault, status == TIGERCANON_DONE ? "same\n" : "different\n");
    return 0;
}
