#include "words.h"
#include "fault.h"

const char *name_of(Word word) {
    static const char *const names[] = {"-",    "word", "locked", "pending", "both", "tail",  "rw.word",   "rw.writer",
                                        "next", "flag", "prev",   "count",   "cpu",  "state", "hash.lock", "hash.node"};
    return names[(int)word];
}

Word word_named(const std::string &name) {
    for (int i = 0; i <= (int)Word::hash_node; i++)
        if (name == name_of((Word)i)) return (Word)i;
    fail("no word %s", name.c_str());
}

std::vector<std::string> words_of(const std::string &line) {
    std::vector<std::string> words;
    std::string word;
    for (char letter : line + " ") {
        if (letter != ' ' && letter != '\t' && letter != '\r') {
            word += letter;
        } else if (!word.empty()) {
            words.push_back(word);
            word.clear();
        }
    }
    return words;
}
