// Uses both headers from C++: a monitor whose end closes it.
//
//     monitor START
#include "mls.h"
#include "mls_shared.h"

#include <fstream>
#include <iostream>
#include <iterator>
#include <string>

class Monitor {
public:
    explicit Monitor(const std::string &start) {
        mls_fault fault;
        const uint8_t *bytes = reinterpret_cast<const uint8_t *>(start.data());
        if (mls_shared_init(&shared) != MLS_OK) throw std::string("no mutex");
        int status = mls_shared_open(&shared, bytes, start.size(), &fault);
        if (status != MLS_OK) throw std::string(mls_status_word(status));
    }
    ~Monitor() { mls_shared_destroy(&shared); }

    std::string get(uint16_t subject, uint16_t object, uint8_t mode) {
        mls_request request = mls_request_of(MLS_GET, subject, object, mode);
        mls_answer answer;
        int status = mls_shared_submit(&shared, 0, &request, &answer);
        if (status != MLS_OK) return mls_status_word(status);
        return answer.reply < MLS_DENIED ? mls_reply_word(answer.reply) : mls_reason_word(answer.reply - MLS_DENIED);
    }

private:
    Monitor(const Monitor &);
    Monitor &operator=(const Monitor &);
    mls_shared shared;
};

int main(int argc, char **argv) {
    std::ifstream file(argc == 2 ? argv[1] : "");
    std::string start((std::istreambuf_iterator<char>(file)), std::istreambuf_iterator<char>());
    Monitor monitor(start);
    std::cout << monitor.get(0, 1, MLS_READ) << ' ' << monitor.get(1, 2, MLS_READ) << ' ';
    std::cout << monitor.get(0, 1, 4) << '\n';
    return 0;
}
