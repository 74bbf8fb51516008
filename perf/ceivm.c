/* A plain C switch interpreter of the CEIVM that makes the same tests, for comparison with the proved one.
 * ceivm IMAGE STEPS: the image is what `speed cells FILE` prints. It prints steps, pc and bytes shown. */
#include <stdint.h>
#include <stdio.h>
#include <stdlib.h>
#include <string.h>

enum { PUSH = 1, ADD, SUB, MUL, DIV, MOD, NEG, AND, OR, NOT, EQ, NE, LT, GT, LE, GE, DUP, POP, SWAP, JUMP, BF, BT, NOP, READ, BPRINT,
       CPRINT, IPRINT, SPRINT, PRNLN, LOAD, STORE, LOADREF, STOREREF, DEREF, CALL, LOADFP, LOADSP, STOREFP, RMEM, FMEM, RET, HALT,
       LOADPC, STOREPC, STORESP, LOADHP, STOREHP, LOADHL, STOREHL };

enum outcome { SPENT, HALTED, READING, SPACE, FAULT };

struct machine { int64_t pc, sp, fp, hp, hl, n, code, floor; int fault; };
struct port { unsigned char bytes[64]; unsigned shown; int32_t readings[16]; unsigned waiting; };

#define FAIL(k) do { fault = (k); goto failed; } while (0)
#define NEED(k) do { if (sp + (k) > n) FAIL(24); } while (0)
#define ROOM(k) do { if (sp - (k) <= hl) FAIL(27); } while (0)
#define ARG() do { if (pc + 1 >= code) FAIL(22); } while (0)
#define FIT(x) do { int64_t v_ = (x); if (v_ < INT32_MIN || v_ > INT32_MAX) FAIL(31); M[sp + 1] = (int32_t)v_; } while (0)
#define REFER(r, k) do { if ((r) == 0) FAIL(28); at = (int64_t)(r) + (k); if (at < code || at > hl) FAIL(29); } while (0)
#define SHOW(text, len) do { if ((len) > 64u - port->shown) { out = SPACE; goto stopped; } memcpy(port->bytes + port->shown, (text), (len)); port->shown += (unsigned)(len); } while (0)

static enum outcome run(struct machine *m, int32_t *M, struct port *port, uint32_t allowance, uint32_t *steps)
{
    int64_t pc = m->pc, sp = m->sp, fp = m->fp, hp = m->hp, hl = m->hl, at;
    const int64_t n = m->n, code = m->code, floor = m->floor;
    uint32_t done = 0;
    int fault = 0;
    enum outcome out = SPENT;
    char text[16];
    while (done < allowance) {
        if (pc < 0 || pc >= code) FAIL(22);
        switch (M[pc]) {
        case PUSH: ARG(); ROOM(1); M[--sp] = M[pc + 1]; pc += 2; break;
        case ADD: NEED(2); FIT((int64_t)M[sp + 1] + M[sp]); sp++; pc++; break;
        case SUB: NEED(2); FIT((int64_t)M[sp + 1] - M[sp]); sp++; pc++; break;
        case MUL: NEED(2); FIT((int64_t)M[sp + 1] * M[sp]); sp++; pc++; break;
        case DIV: NEED(2); if (M[sp] == 0) FAIL(30); FIT((int64_t)M[sp + 1] / M[sp]); sp++; pc++; break;
        case MOD: NEED(2); if (M[sp] == 0) FAIL(30); M[sp + 1] = M[sp] == -1 ? 0 : M[sp + 1] % M[sp]; sp++; pc++; break;
        case NEG: NEED(1); if (M[sp] == INT32_MIN) FAIL(31); M[sp] = -M[sp]; pc++; break;
        case AND: NEED(2); M[sp + 1] = M[sp + 1] != 0 && M[sp] != 0; sp++; pc++; break;
        case OR: NEED(2); M[sp + 1] = M[sp + 1] != 0 || M[sp] != 0; sp++; pc++; break;
        case NOT: NEED(1); { int64_t v = 1 - (int64_t)M[sp]; if (v > INT32_MAX) FAIL(31); M[sp] = (int32_t)v; } pc++; break;
        case EQ: NEED(2); M[sp + 1] = M[sp + 1] == M[sp]; sp++; pc++; break;
        case NE: NEED(2); M[sp + 1] = M[sp + 1] != M[sp]; sp++; pc++; break;
        case LT: NEED(2); M[sp + 1] = M[sp + 1] < M[sp]; sp++; pc++; break;
        case GT: NEED(2); M[sp + 1] = M[sp + 1] > M[sp]; sp++; pc++; break;
        case LE: NEED(2); M[sp + 1] = M[sp + 1] <= M[sp]; sp++; pc++; break;
        case GE: NEED(2); M[sp + 1] = M[sp + 1] >= M[sp]; sp++; pc++; break;
        case DUP: NEED(1); ROOM(1); M[sp - 1] = M[sp]; sp--; pc++; break;
        case POP: NEED(1); sp++; pc++; break;
        case SWAP: NEED(2); { int32_t a = M[sp]; M[sp] = M[sp + 1]; M[sp + 1] = a; } pc++; break;
        case JUMP: ARG(); pc = M[pc + 1]; break;
        case BF: ARG(); NEED(1); pc = M[sp] == 0 ? M[pc + 1] : pc + 2; sp++; break;
        case BT: ARG(); NEED(1); pc = M[sp] != 0 ? M[pc + 1] : pc + 2; sp++; break;
        case NOP: pc++; break;
        case READ: ROOM(1); if (port->waiting == 0) { out = READING; goto stopped; }
            M[--sp] = port->readings[0]; memmove(port->readings, port->readings + 1, --port->waiting * sizeof(int32_t)); pc++; break;
        case BPRINT: NEED(1); if (M[sp]) SHOW("true", 4u); else SHOW("false", 5u); sp++; pc++; break;
        case CPRINT: NEED(1); if (M[sp] < 0 || M[sp] > 255) FAIL(32); text[0] = (char)M[sp]; SHOW(text, 1u); sp++; pc++; break;
        case IPRINT: NEED(1); {
            char *end = text + 12, *p = end;
            uint32_t u = M[sp] < 0 ? 0u - (uint32_t)M[sp] : (uint32_t)M[sp];
            do { *--p = (char)('0' + u % 10); u /= 10; } while (u);
            if (M[sp] < 0) *--p = '-';
            SHOW(p, (unsigned)(end - p)); sp++; pc++; break; }
        case SPRINT: NEED(1); REFER(M[sp], 0); if (M[at] == 0) { sp++; pc++; break; }
            if (M[at] < 0 || M[at] > 255) FAIL(32); text[0] = (char)M[at]; SHOW(text, 1u); M[sp]++; break;
        case PRNLN: SHOW("\n", 1u); pc++; break;
        case LOAD: ARG(); at = fp + M[pc + 1]; if (at < sp || at >= n) FAIL(25); ROOM(1); M[sp - 1] = M[at]; sp--; pc += 2; break;
        case STORE: ARG(); NEED(1); at = fp + M[pc + 1]; if (at < sp || at >= n) FAIL(25); M[at] = M[sp]; sp++; pc += 2; break;
        case LOADREF: ARG(); NEED(1); REFER(M[sp], M[pc + 1]); M[sp] = M[at]; pc += 2; break;
        case STOREREF: ARG(); NEED(2); REFER(M[sp + 1], M[pc + 1]); M[at] = M[sp]; sp += 2; pc += 2; break;
        case DEREF: NEED(1); REFER(M[sp], 0); M[sp] = M[at]; pc++; break;
        case CALL: NEED(1); at = M[sp]; M[sp] = (int32_t)(pc + 1); pc = at; break;
        case LOADFP: ROOM(1); M[--sp] = (int32_t)fp; pc++; break;
        case LOADSP: ROOM(1); sp--; M[sp] = (int32_t)sp; pc++; break;
        case STOREFP: NEED(1); fp = M[sp++]; pc++; break;
        case RMEM: ARG(); if (M[pc + 1] < 0) FAIL(23); ROOM(M[pc + 1]); sp -= M[pc + 1]; pc += 2; break;
        case FMEM: ARG(); if (M[pc + 1] < 0) FAIL(23); NEED((int64_t)M[pc + 1]); sp += M[pc + 1]; pc += 2; break;
        case RET: ARG(); if (M[pc + 1] < 0) FAIL(23); NEED((int64_t)M[pc + 1] + 1); at = M[sp]; sp += M[pc + 1] + 1; pc = at; break;
        case HALT: done++; out = HALTED; goto stopped;
        case LOADPC: ROOM(1); M[--sp] = (int32_t)pc; pc++; break;
        case STOREPC: NEED(1); pc = M[sp++]; break;
        case STORESP: NEED(1); if (M[sp] <= hl || M[sp] > n) FAIL(26); sp = M[sp]; pc++; break;
        case LOADHP: ROOM(1); M[--sp] = (int32_t)hp; pc++; break;
        case STOREHP: NEED(1); hp = M[sp++]; pc++; break;
        case LOADHL: ROOM(1); M[--sp] = (int32_t)hl; pc++; break;
        case STOREHL: NEED(1); if (M[sp] < floor - 1 || M[sp] > sp) FAIL(33); hl = M[sp++]; pc++; break;
        default: FAIL(22);
        }
        done++;
    }
    goto stopped;
failed:
    m->fault = fault;
    out = FAULT;
stopped:
    m->pc = pc; m->sp = sp; m->fp = fp; m->hp = hp; m->hl = hl;
    *steps = done;
    return out;
}

int main(int argc, char **argv)
{
    if (argc < 3) return 2;
    FILE *f = fopen(argv[1], "r");
    long n, code, data, heap;
    if (!f || fscanf(f, "%ld %ld %ld %ld", &n, &code, &data, &heap) != 4) return 2;
    int32_t *memory = calloc((size_t)n, sizeof(int32_t));
    for (long i = 0; i < n; i++) if (fscanf(f, "%d", memory + i) != 1) return 2;
    struct machine m = { 0, n, n - 1, code + data, code + data + heap - 1, n, code, code + data, 0 };
    struct port port = { 0 };
    uint32_t left = (uint32_t)strtoul(argv[2], NULL, 10), total = left, done;
    unsigned long bytes = 0;
    for (;;) {
        enum outcome out = run(&m, memory, &port, left, &done);
        left -= done;
        bytes += port.shown;
        if (out != SPACE) break;
        port.shown = 0;
    }
    printf("%u %lld %lu\n", total - left, (long long)m.pc, bytes);
    return 0;
}
