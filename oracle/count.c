/* A plugin of Debian's qemu-user that counts the instructions of the program that is run. The count is the same in every run and on
 * every machine. scripts/speed builds and uses it:
 *
 *   cc -shared -fPIC -O2 -o libcount.so oracle/count.c
 *   qemu-x86_64 -plugin ./libcount.so -d plugin -D FILE PROGRAM ..     leaves the count in FILE
 *
 * A block of instructions is counted whole when it is entered. What is declared here is of version 1 of the plugin interface, so that no
 * header of qemu's is needed.
 */
#include <stddef.h>
#include <stdint.h>
#include <stdio.h>

#define SEEN __attribute__((visibility("default")))

struct qemu_plugin_tb;
typedef uint64_t plugin_id;
typedef void on_block(plugin_id id, struct qemu_plugin_tb *block);
typedef void on_exit(plugin_id id, void *data);

void qemu_plugin_register_vcpu_tb_trans_cb(plugin_id id, on_block *call);
void qemu_plugin_register_vcpu_tb_exec_inline(struct qemu_plugin_tb *block, int operation, void *number, uint64_t by);
size_t qemu_plugin_tb_n_insns(const struct qemu_plugin_tb *block);
void qemu_plugin_register_atexit_cb(plugin_id id, on_exit *call, void *data);
void qemu_plugin_outs(const char *text);

enum { ADD_TO_NUMBER = 0 };

SEEN int qemu_plugin_version = 1;

static uint64_t instructions;

/* A block is translated once and run many times. */
static void translated(plugin_id id, struct qemu_plugin_tb *block)
{
    (void)id;
    qemu_plugin_register_vcpu_tb_exec_inline(block, ADD_TO_NUMBER, &instructions, qemu_plugin_tb_n_insns(block));
}

static void ended(plugin_id id, void *data)
{
    char text[32];

    (void)id;
    (void)data;
    snprintf(text, sizeof text, "%llu\n", (unsigned long long)instructions);
    qemu_plugin_outs(text);
}

SEEN int qemu_plugin_install(plugin_id id, const void *info, int argc, char **argv)
{
    (void)info;
    (void)argc;
    (void)argv;
    qemu_plugin_register_vcpu_tb_trans_cb(id, translated);
    qemu_plugin_register_atexit_cb(id, ended, NULL);
    return 0;
}
