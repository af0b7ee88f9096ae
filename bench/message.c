/* Prints the world and the plan of the component of a message as JSON: message MESSAGE.json MODULES. slow-inputs.py counts
 * its instructions. */
#include "../examples/c/files.h"

int main(int count, char **words) {
    if (count != 3) {
        fputs("usage: message MESSAGE.json MODULES\n", stderr);
        return 2;
    }
    check_version();
    buffer message = {NULL, 0}, modules = {NULL, 0}, out = {NULL, 0};
    append_file(&message, words[1]);
    append_file(&modules, words[2]);
    uint64_t seed[2];
    draw_seed(seed);

    /* so much that one call is enough, as a rule */
    size_t room = 65536 + 16 * (message.length + modules.length);
    nuigatre_answer answer;
    do {
        resize(&out, room);
        answer = nuigatre_planned_world(seed[0], seed[1], message.bytes, message.length, modules.bytes, modules.length,
                                        out.bytes, out.length);
        room = answer.length;
    } while (room > out.length);
    fwrite(out.bytes, 1, answer.length, answer.status == NUIGATRE_DONE ? stdout : stderr);
    if (answer.status != NUIGATRE_DONE) fprintf(stderr, "status %u, fault %u\n", answer.status, answer.fault);
    return answer.status == NUIGATRE_DONE ? 0 : 1;
}
