// Files: read whole, recognised by what is in them, written whole.
#pragma once

#include <string>

// throws a Failure that names the file and why it cannot be read
std::string read_file(const std::string &path);

// Tests, before a search that may take long, that a file can be written there; it is not written yet.
void test_writable(const std::string &path);
// throws a Failure where not all of it is written
void write_file(const std::string &path, const std::string &text);
void make_folder(const std::string &path);

// the same file, by whatever names
bool same_file(const std::string &left, const std::string &right);

bool ends_with(const std::string &text, const std::string &end);

// what a file is that is none of ours, as `binary AIGER`; empty where it is not recognised
std::string other_kind(const std::string &content);
