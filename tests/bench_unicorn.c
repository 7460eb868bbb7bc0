/*
 * Runs code under Unicorn (libunicorn 2) as a session of flicker does: a region of 65,536 bytes with the code at 32,
 * the registers of docs/SESSIONS.md for a session without inputs, and a hook on every instruction, which counts the
 * turns. It ends at `int 0x80` of service 0, and then writes how, in the words of a transcript.
 *
 * On standard input is the code, two digits a byte, as `flicker asm` writes it.
 */
#include <stdint.h>
#include <stdio.h>
#include <stdlib.h>
#include <unicorn/unicorn.h>

enum { REGION = 65536, CODE = 32, LONGEST = 49120, INPUTS = 57344, OUTPUTS = 61440, PAGE = 4096 };

struct session {
    uint64_t turns;
    int is_over;
};

static void check(uc_err answer, const char *call)
{
    if (answer != UC_ERR_OK) {
        fprintf(stderr, "bench_unicorn: %s: %s\n", call, uc_strerror(answer));
        exit(1);
    }
}

static void on_instruction(uc_engine *engine, uint64_t address, uint32_t size, void *data)
{
    struct session *session = data;
    (void)engine, (void)address, (void)size;
    session->turns++;
}

static void on_gate(uc_engine *engine, uint32_t number, void *data)
{
    struct session *session = data;
    uint32_t service = 1;
    check(uc_reg_read(engine, UC_X86_REG_EAX, &service), "uc_reg_read");
    session->is_over = number == 0x80 && service == 0;
    check(uc_emu_stop(engine), "uc_emu_stop");
}

static size_t read_code(uint8_t *code)
{
    size_t count = 0;
    unsigned byte;
    while (count < LONGEST && scanf("%2x", &byte) == 1)
        code[count++] = byte;
    return count;
}

static void set(uc_engine *engine, int number, uint32_t value)
{
    check(uc_reg_write(engine, number, &value), "uc_reg_write");
}

static void write_end(uc_engine *engine, const struct session *session)
{
    uint8_t outputs[PAGE];
    uint32_t count = 0;
    check(uc_reg_read(engine, UC_X86_REG_EBX, &count), "uc_reg_read");
    if (!session->is_over || count > PAGE) {
        fprintf(stderr, "bench_unicorn: the code did not end the session\n");
        exit(1);
    }
    check(uc_mem_read(engine, OUTPUTS, outputs, count), "uc_mem_read");
    printf("ok done turns %llu dma 0 0 0 x:", (unsigned long long)session->turns);
    for (uint32_t at = 0; at < count; at++)
        printf("%02x", outputs[at]);
    printf("\n");
}

int main(void)
{
    static uint8_t code[LONGEST];
    struct session session = {0, 0};
    uc_engine *engine;
    uc_hook instructions, gates;
    size_t count = read_code(code);
    if (count == 0) {
        fprintf(stderr, "bench_unicorn: no code\n");
        return 2;
    }
    check(uc_open(UC_ARCH_X86, UC_MODE_32, &engine), "uc_open");
    check(uc_mem_map(engine, 0, REGION, UC_PROT_ALL), "uc_mem_map");
    check(uc_mem_write(engine, CODE, code, count), "uc_mem_write");
    set(engine, UC_X86_REG_ESI, INPUTS);
    set(engine, UC_X86_REG_EDI, OUTPUTS);
    set(engine, UC_X86_REG_ESP, INPUTS);
    check(uc_hook_add(engine, &instructions, UC_HOOK_CODE, (void *)on_instruction, &session, 1, 0), "uc_hook_add");
    check(uc_hook_add(engine, &gates, UC_HOOK_INTR, (void *)on_gate, &session, 1, 0), "uc_hook_add");
    check(uc_emu_start(engine, CODE, REGION, 0, 0), "uc_emu_start");
    write_end(engine, &session);
    check(uc_close(engine), "uc_close");
    return 0;
}
