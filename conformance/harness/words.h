// The shared words on which operations are made, by the names that the table of operations has for them.
#pragma once
#include <string>
#include <vector>

enum class Word { none, word, locked, pending, both, tail, rw_word, rw_writer, next, flag, prev, count, cpu, state, hash_lock, hash_node };

const char *name_of(Word word);
// The word with this name; a name that is none ends the run.
Word word_named(const std::string &name);
// The words of a line of text.
std::vector<std::string> words_of(const std::string &line);
