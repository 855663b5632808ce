/* See machine.h. In the comments, words between quotation marks are the
   paper's own. */
#include "machine.h"

#include "timers.h"

/* The register file. 002, "R240 SIO" to "R255 SPL"; 004, 3.2: "4 I/O ports
   (R0-R3), 124 general-purpose registers (R4-R127), 9 peripheral registers
   (R240-R248), and 7 control registers (R249-R255)". */
#define P0     0x00
#define P1     0x01
#define P2     0x02
#define P3     0x03
#define SIO    0xF0
#define TMR    0xF1
#define T1     0xF2
#define PRE1   0xF3
#define T0     0xF4
#define PRE0   0xF5
#define P2M    0xF6
#define P3M    0xF7
#define P01M   0xF8
#define IPR    0xF9
#define IRQ    0xFA
#define IMR    0xFB
#define FLAGS  0xFC
#define RP     0xFD
#define SPH    0xFE
#define SPL    0xFF

/* 01: "80 to EF and F0 read FF and drop stores (HOUSE)." Of F0 that is so while
   the serial port is off; 02, C-11: "F0 then reads the received byte and starts
   a send." */
#define GAP_FIRST  0x80
#define GAP_LAST   0xEF

/* P01M. 002, R248: "P0_0 - P0_3 MODE 00 = OUTPUT 01 = INPUT 1X = A_8 - A_11",
   the other nibble likewise with "A_12 - A_15 = 1X", "P1_0 - P1_7 MODE 00 =
   BYTE OUTPUT 01 = BYTE INPUT 10 = AD_0 - AD_7 11 = HIGH-IMPEDANCE", "STACK
   SELECTION 0 = EXTERNAL 1 = INTERNAL". The bits are in 004, 9.2.1: "bits
   D_1D_0 and D_7D_6 are used to configure Port 0 nibbles"; 9.3.1: "Port 1
   [...] D_4 and D_3"; 6.4: "A stack's location is determined by bit D_2". */
#define P01M_LOW_INPUT     0x01
#define P01M_LOW_ADDRESS   0x02
#define P01M_INTERNAL      0x04
#define P01M_PORT1_INPUT   0x08
#define P01M_PORT1_BUS     0x10
#define P01M_HIGH_INPUT    0x40
#define P01M_HIGH_ADDRESS  0x80

/* Bits that a register hasn't. 01: TMR's load bits, "bits 0 and 2 of TMR"; "6
   and 7 of IRQ"; "0 to 3 of RP". 004, 10.8, of IMR: "Bit D_6 is not
   implemented, though reading this bit returns 0." */
#define TMR_LOADS     0x05
#define IRQ_MISSING   0xC0
#define IMR_MISSING   0x40
#define RP_MISSING    0x0F

/* 004, 10.4.3: "Bits D_0 - D_5 are assigned to interrupt requests" 0 to 5. */
#define IRQ_REQUEST3  0x08
#define IRQ_REQUEST4  0x10

/* P3M. 002, R247: "0 P3_0 = INPUT P3_7 = OUTPUT 1 P3_0 = SERIAL IN P3_7 =
   SERIAL OUT", "0 PARITY OFF 1 PARITY ON". The bits are 02's: "odd parity by
   P3M bit 7, active when P3M bit 6 is set"; 004, 12.2: "When Port 3 Mode
   register bit D_6 is set to 1, the serial I/O is enabled". C-11: "Of P3M only
   bits 6 and 7 do anything." */
#define P3M_SERIAL  0x40
#define P3M_PARITY  0x80

/* Of Port 3's latch, and of its pins. */
#define PORT3_P30   0x01
#define PORT3_P37   0x80

int ref_serial_on(const struct ref_machine *m)
{
    return (m->file[P3M] & P3M_SERIAL) != 0;
}

static int parity_is_on(const struct ref_machine *m)
{
    return (m->file[P3M] & P3M_PARITY) != 0;
}

/* 02, C-13: "the request register is held at zero until the first EI after
   reset". 004, 10.4.3: "IRQ is held in a Reset state until an EI instruction is
   executed", 10.8: "IRQ bits D_0-D_5 are held at 0 until an EI instruction is
   executed." IMR is not asked: 02, "A store that sets bit 7 of IMR isn't an
   EI". Decided for C-13: neither is IRET, and DI holds nothing again, only a
   reset does. */
int ref_irq_is_held(const struct ref_machine *m)
{
    return !m->ei_executed;
}

/* C-11: "the port's line while on, else bit 7 of P3's latch". */
int ref_p37(const struct ref_machine *m)
{
    if (ref_serial_on(m)) {
        return ref_serial_line(&m->serial);
    }
    return (m->file[P3] & PORT3_P37) != 0;
}

/* 01: "An output bit reads its latch, an input bit its pin." Where inputs has a
   1 the bit is an input. */
static uint8_t latch_or_pin(uint8_t latch, uint8_t pins, uint8_t inputs)
{
    return (uint8_t)((pins & inputs) | (latch & ~inputs));
}

/* Port 0. 01: "P0, P1: nibble or byte mode from P01M; an address nibble reads
   ones". 004, 6.3: "Reading Port 0 with only the lower nibble defined as
   address outputs returns XF, where X equals the data in bits D_4-D_7." (004,
   9.2.1, has an output nibble read its pins; 01 decides.) */
static uint8_t read_port0(uint8_t mode, uint8_t latch, uint8_t pins)
{
    uint8_t low, high;

    if (mode & P01M_LOW_ADDRESS) {
        low = 0x0F;
    } else if (mode & P01M_LOW_INPUT) {
        low = pins & 0x0F;
    } else {
        low = latch & 0x0F;
    }

    if (mode & P01M_HIGH_ADDRESS) {
        high = 0xF0;
    } else if (mode & P01M_HIGH_INPUT) {
        high = pins & 0xF0;
    } else {
        high = latch & 0xF0;
    }

    return (uint8_t)(high | low);
}

/* Port 0's latch after a store. 01: an address nibble "drops stores", and
   "Other port stores go to the latch, input bits too (HOUSE)". 004, 6.3:
   "Writing to Port 0 transfers data to the I/O nibble only." */
static uint8_t write_port0(uint8_t mode, uint8_t latch, uint8_t byte)
{
    uint8_t low = byte & 0x0F;
    uint8_t high = byte & 0xF0;

    if (mode & P01M_LOW_ADDRESS) {
        low = latch & 0x0F;
    }
    if (mode & P01M_HIGH_ADDRESS) {
        high = latch & 0xF0;
    }
    return (uint8_t)(high | low);
}

/* Port 1. 01: "Port 1 in mode 10 or 11 reads FF and drops stores." */
static uint8_t read_port1(uint8_t mode, uint8_t latch, uint8_t pins)
{
    if (mode & P01M_PORT1_BUS) {
        return 0xFF;
    }
    if (mode & P01M_PORT1_INPUT) {
        return pins;
    }
    return latch;
}

/* C-11: off, "F0 reads FF", and on it reads the received byte (02); "reading F0
   clears nothing". 01: "80 to EF and F0 read FF". "F3 and F5 to F9 are
   write-only (002) and read FF. F2 and F4 read the count in progress, 256 as
   0." "A P2M bit that is set means input." "P3 bits 0 to 3 are inputs, 4 to 7
   outputs", whatever P3M: C-11, "bit 7 reads its latch and takes stores as in
   01", "P30 reads its pin". "RP's low nibble always reads 0 (HOUSE)." A load
   bit "reads back 0". 004, 10.8, of IRQ: "Bits D_6 and D_7 are not implemented,
   but reading these bits returns 0", of IMR see above; 02, C-13, of IRQ before
   the first EI: "it reads 0". The rest read their places. */
uint8_t ref_read(const struct ref_machine *m, const struct ref_pins *pins,
                 uint8_t address)
{
    uint8_t place = m->file[address];

    if (address >= GAP_FIRST && address <= GAP_LAST) {
        return 0xFF;
    }

    switch (address) {
    case P0:
        return read_port0(m->file[P01M], place, pins->port[0]);
    case P1:
        return read_port1(m->file[P01M], place, pins->port[1]);
    case P2:
        return latch_or_pin(place, pins->port[2], m->file[P2M]);
    case P3:
        return latch_or_pin(place, pins->port[3], 0x0F);
    case SIO:
        if (ref_serial_on(m)) {
            return m->serial.received;
        }
        return 0xFF;
    case TMR:
        return (uint8_t)(place & ~TMR_LOADS);
    case T1:
        return (uint8_t)(m->counter1 % 256);
    case T0:
        return (uint8_t)(m->counter0 % 256);
    case PRE1:
    case PRE0:
    case P2M:
    case P3M:
    case P01M:
    case IPR:
        return 0xFF;
    case IRQ:
        if (ref_irq_is_held(m)) {
            return 0;
        }
        return (uint8_t)(place & ~IRQ_MISSING);
    case IMR:
        return (uint8_t)(place & ~IMR_MISSING);
    case RP:
        return (uint8_t)(place & ~RP_MISSING);
    default:
        return place;
    }
}

/* The machine's timers as timers.h has them, no ends yet. */
static struct ref_timers take_timers(const struct ref_machine *m)
{
    struct ref_timers t;

    t.tmr = m->file[TMR];
    t.t1 = m->file[T1];
    t.pre1 = m->file[PRE1];
    t.t0 = m->file[T0];
    t.pre0 = m->file[PRE0];
    t.irq = m->file[IRQ];
    t.irq_is_held = (uint8_t)ref_irq_is_held(m);
    t.port3 = m->port3;
    t.serial_on = (uint8_t)ref_serial_on(m);
    t.divider = m->divider;
    t.prescaler0 = m->prescaler0;
    t.prescaler1 = m->prescaler1;
    t.counter0 = m->counter0;
    t.counter1 = m->counter1;
    t.tout = m->tout;
    t.ends0 = 0;
    t.ends1 = 0;
    return t;
}

/* And back again, all that can have moved. */
static void put_timers(struct ref_machine *m, const struct ref_timers *t)
{
    m->file[TMR] = t->tmr;
    m->file[IRQ] = t->irq;
    m->divider = t->divider;
    m->prescaler0 = t->prescaler0;
    m->prescaler1 = t->prescaler1;
    m->counter0 = t->counter0;
    m->counter1 = t->counter1;
    m->tout = t->tout;
}

/* C-11: "Any store to F0 while on (also by the stack, LDCI, CLR, a
   read-modify-write, which reads the received byte and sends the result)"
   begins a send, with parity "as it stands at the store"; off, F0 "drops stores
   as in 01". "F0's place in the register file stays zero".

   01: "80 to EF and F0 [...] drop stores (HOUSE)." For the ports see above;
   Port 2 and Port 3 have no dropped bits: "Other port stores go to the latch,
   input bits too (HOUSE)". "IRQ bits 6 and 7 drop stores (HOUSE)", and before
   the first EI all of IRQ does: 02, C-13, "stores to FA are dropped", decided:
   by whatever stores, the stack too. "RP's low nibble always reads 0",
   and only zero is legal there. "Writing a load bit copies P and N [...]" is
   ref_write_tmr. "Writing F2 to F5 alone moves no count", so these are plain,
   as are the rest; bit 6 of IMR is held as stored. */
void ref_write(struct ref_machine *m, uint8_t address, uint8_t byte)
{
    struct ref_timers t;

    if (address >= GAP_FIRST && address <= GAP_LAST) {
        return;
    }

    switch (address) {
    case P0:
        m->file[P0] = write_port0(m->file[P01M], m->file[P0], byte);
        break;
    case P1:
        if (!(m->file[P01M] & P01M_PORT1_BUS)) {
            m->file[P1] = byte;
        }
        break;
    case SIO:
        if (ref_serial_on(m)) {
            ref_serial_store(&m->serial, byte, parity_is_on(m));
        }
        break;
    case TMR:
        t = take_timers(m);
        ref_write_tmr(&t, byte);
        put_timers(m, &t);
        break;
    case IRQ:
        if (!ref_irq_is_held(m)) {
            m->file[IRQ] = (uint8_t)(byte & ~IRQ_MISSING);
        }
        break;
    case RP:
        m->file[RP] = (uint8_t)(byte & ~RP_MISSING);
        break;
    default:
        m->file[address] = byte;
        break;
    }
}

/* 004, 3.2: "the 4-bit address is concatenated with the upper four bits of the
   Register Pointer, thus forming an 8-bit address". The address so formed is
   not looked at again: with RP E0, working register x is Ex. */
uint8_t ref_working(const struct ref_machine *m, uint8_t nibble)
{
    return (uint8_t)((m->file[RP] & 0xF0) | (nibble & 0x0F));
}

/* 01: "An operand byte Ex in a register, indirect-register or pair field means
   working register x of the group in RP." */
uint8_t ref_register(const struct ref_machine *m, uint8_t field)
{
    if ((field & 0xF0) == 0xE0) {
        return ref_working(m, field & 0x0F);
    }
    return field;
}

/* 004, 4.3: "the contents of the specified register is the address of the
   operand". 01: "An address found inside a register is taken as it is." */
uint8_t ref_indirect(const struct ref_machine *m, const struct ref_pins *pins,
                     uint8_t field)
{
    return ref_read(m, pins, ref_register(m, field));
}

/* The same, from a working register. */
uint8_t ref_indirect_working(const struct ref_machine *m,
                             const struct ref_pins *pins, uint8_t nibble)
{
    return ref_read(m, pins, ref_working(m, nibble));
}

/* 01: "An indexed address is offset plus index register, modulo 256, with no Ex
   rule (HOUSE)." */
uint8_t ref_indexed(const struct ref_machine *m, const struct ref_pins *pins,
                    uint8_t offset, uint8_t nibble)
{
    uint8_t index = ref_read(m, pins, ref_working(m, nibble));

    return (uint8_t)((offset + index) % 256);
}

/* 01: "A pair address drops its lowest bit (HOUSE); the even register is the
   high byte." Each half reads by the register rules. */
uint16_t ref_pair(const struct ref_machine *m, const struct ref_pins *pins,
                  uint8_t address)
{
    uint8_t even = (uint8_t)(address & 0xFE);
    uint8_t odd = (uint8_t)(even + 1);
    uint8_t high = ref_read(m, pins, even);
    uint8_t low = ref_read(m, pins, odd);

    return (uint16_t)(high * 256 + low);
}

/* The same, the even register first, each by the register rules. */
void ref_write_pair(struct ref_machine *m, uint8_t address, uint16_t word)
{
    uint8_t even = (uint8_t)(address & 0xFE);
    uint8_t odd = (uint8_t)(even + 1);

    ref_write(m, even, (uint8_t)(word / 256));
    ref_write(m, odd, (uint8_t)(word % 256));
}

/* 01: "Program bytes past the image read FF (HOUSE)." */
uint8_t ref_program(const uint8_t *image, size_t length, uint16_t address)
{
    if (address < length) {
        return image[address];
    }
    return 0xFF;
}

/* 1 where data memory answers at the address, else 0. 01: "Data addresses under
   2,048 (type 1) or 4,096 (type 11), or past the lent memory, read FF; stores
   there are dropped (HOUSE)." The lent memory's byte i is that of data address
   i. A type other than 1 counts as 11. */
static int data_answers(const struct ref_machine *m, size_t length,
                        uint16_t address)
{
    if (m->type == 1) {
        return address >= 2048 && address < length;
    }
    return address >= 4096 && address < length;
}

uint8_t ref_data(const struct ref_machine *m, const uint8_t *data,
                 size_t length, uint16_t address)
{
    if (data_answers(m, length, address)) {
        return data[address];
    }
    return 0xFF;
}

void ref_store_data(const struct ref_machine *m, uint8_t *data, size_t length,
                    uint16_t address, uint8_t byte)
{
    if (data_answers(m, length, address)) {
        data[address] = byte;
    }
}

/* 01: "P01M bit 2 set means internal". 1 where it is, else 0. */
static int stack_is_internal(const struct ref_machine *m)
{
    return (m->file[P01M] & P01M_INTERNAL) != 0;
}

/* 01: "Stack, its kind taken before anything is written: P01M bit 2 set means
   internal, where SPL alone counts modulo 256 and R254 stays. External uses the
   pair modulo 65,536. SP is written first, then bytes upward in address order.
   [...] Register stores by the stack follow the register rules." 004, 3.6: "The
   stack address is decremented prior to a Push operation". */
void ref_push(struct ref_machine *m, uint8_t *data, size_t length,
              const uint8_t *bytes, int n)
{
    int i;

    if (stack_is_internal(m)) {
        uint8_t top = (uint8_t)(m->file[SPL] - n);

        m->file[SPL] = top;
        for (i = 0; i < n; i++) {
            ref_write(m, (uint8_t)(top + i), bytes[i]);
        }
    } else {
        uint16_t top = (uint16_t)(m->file[SPH] * 256 + m->file[SPL] - n);

        m->file[SPH] = (uint8_t)(top / 256);
        m->file[SPL] = (uint8_t)(top % 256);
        for (i = 0; i < n; i++) {
            ref_store_data(m, data, length, (uint16_t)(top + i), bytes[i]);
        }
    }
}

/* 01: the same, and "RET, IRET and POP read, write SP, then load the
   destination" (the last is the caller's). 004, 3.6: the stack address is
   "incremented after a Pop operation. The stack address always points to the
   data stored on the top-of-stack." */
void ref_pop(struct ref_machine *m, const struct ref_pins *pins,
             const uint8_t *data, size_t length, uint8_t *bytes, int n)
{
    int i;

    if (stack_is_internal(m)) {
        uint8_t top = m->file[SPL];

        for (i = 0; i < n; i++) {
            bytes[i] = ref_read(m, pins, (uint8_t)(top + i));
        }
        m->file[SPL] = (uint8_t)(top + n);
    } else {
        uint16_t top = (uint16_t)(m->file[SPH] * 256 + m->file[SPL]);
        uint16_t after = (uint16_t)(top + n);

        for (i = 0; i < n; i++) {
            bytes[i] = ref_data(m, data, length, (uint16_t)(top + i));
        }
        m->file[SPH] = (uint8_t)(after / 256);
        m->file[SPL] = (uint8_t)(after % 256);
    }
}

/* 01: "Reset: PC 000C, P01M 4D, P2M FF; P3M, TMR, IRQ, IMR, PRE0, PRE1, divider
   0; other control bytes and latches 0, T_OUT 1, prescalers 64, counters saved
   as 0, last pins all ones. R4 to R127, type and entry cost stay". The places
   80 to EF aren't named; they are zero in a legal machine and stay. The serial
   port's is ref_serial_reset; 004, 12.5: "Serial mode and parity are
   disabled". 02, C-13: held "until the first EI after reset", so from here on
   none has been executed. */
void ref_reset(struct ref_machine *m)
{
    int i;

    m->pc = 0x000C;

    for (i = P0; i <= P3; i++) {
        m->file[i] = 0;
    }
    for (i = 0xF0; i <= 0xFF; i++) {
        m->file[i] = 0;
    }
    m->file[P01M] = 0x4D;
    m->file[P2M] = 0xFF;

    m->divider = 0;
    m->prescaler0 = 64;
    m->prescaler1 = 64;
    m->counter0 = 256;
    m->counter1 = 256;
    m->port3 = 0xFF;
    m->tout = 1;
    m->ei_executed = 0;
    ref_serial_reset(&m->serial);
}

/* 01, refusal 3: "type not 1 or 11, or entry cost not 6 to 63, at making", the
   "number alone, nothing changed". "a new machine has R4 to R127 zero", and is
   else as after reset; the places 80 to EF are zero, as legal says. */
int ref_make(struct ref_machine *m, uint32_t type, uint32_t entry_cost)
{
    int i;

    if (type != 1 && type != 11) {
        return 3;
    }
    if (entry_cost < 6 || entry_cost > 63) {
        return 3;
    }

    for (i = 0; i < 256; i++) {
        m->file[i] = 0;
    }
    m->type = (uint8_t)type;
    m->entry_cost = (uint8_t)entry_cost;
    ref_reset(m);
    return 0;
}

/* The saved machine. 01: "0 to 255 the register file in address order; 256 and
   257 the program counter, high byte first; 258 the divider; 259 and 260 T0's
   prescaler and counter; 261 and 262 T1's; 263 the last Port 3 pins; 264 the
   T_OUT level; 265 the type (1 or 11); 266 the interrupt entry cost". 02, C-13:
   "whether EI has been executed, in bit 0 of the saved machine's spare byte
   (267 in 01)". z8-requests.h: "01's 268 bytes stay where they are, and eight
   follow": 268 "the received byte", 269 "the receiver's shift register", 270
   "what the receiver waits for", 271 "T0's ends since its last shift clock, or
   since the start edge", 272 "the transmitter's eight bits", 273 "what is on
   P37", 274 "T0's ends since this bit began", 275 "zero". */
#define AT_PC_HIGH     256
#define AT_PC_LOW      257
#define AT_DIVIDER     258
#define AT_PRESCALER0  259
#define AT_COUNTER0    260
#define AT_PRESCALER1  261
#define AT_COUNTER1    262
#define AT_PORT3       263
#define AT_TOUT        264
#define AT_TYPE        265
#define AT_ENTRY_COST  266
#define AT_SPARE       267
#define AT_RECEIVED          268
#define AT_SHIFT             269
#define AT_AWAITS            270
#define AT_RECEIVER_ENDS     271
#define AT_BITS              272
#define AT_PLACE             273
#define AT_TRANSMITTER_ENDS  274
#define AT_PORT_ZERO         275

/* Of the spare byte. */
#define SPARE_EI_EXECUTED  0x01

static void load_serial(struct ref_serial *s, const uint8_t *saved)
{
    s->received = saved[AT_RECEIVED];
    s->shift = saved[AT_SHIFT];
    s->awaits = saved[AT_AWAITS];
    s->receiver_ends = saved[AT_RECEIVER_ENDS];
    s->bits = saved[AT_BITS];
    s->place = saved[AT_PLACE];
    s->transmitter_ends = saved[AT_TRANSMITTER_ENDS];
}

static void save_serial(const struct ref_serial *s, uint8_t *saved)
{
    saved[AT_RECEIVED] = s->received;
    saved[AT_SHIFT] = s->shift;
    saved[AT_AWAITS] = s->awaits;
    saved[AT_RECEIVER_ENDS] = s->receiver_ends;
    saved[AT_BITS] = s->bits;
    saved[AT_PLACE] = s->place;
    saved[AT_TRANSMITTER_ENDS] = s->transmitter_ends;
    saved[AT_PORT_ZERO] = 0;
}

/* 01, refusals 7, "saved machine not 268 bytes", which are 276 now
   (z8-requests.h), and 6, "saved machine not legal", tested in this order.
   "Legal: divider 0 to 3; prescalers 1 to 64; entry cost 6 to 63; T_OUT 0 or
   1; type 1 or 11; [...] places 80 to EF and F0 (hexadecimal) zero; bits 0 and
   2 of TMR, 6 and 7 of IRQ, and 0 to 3 of RP zero." Of byte 267, which 01 has
   zero, all bits but bit 0 stay so, and "a legal machine that hasn't has IRQ
   zero" (02, C-13), one that has executed no EI. F0's place "stays in
   the legal list" (C-11). The port's bytes are legal by ref_serial_legal, and
   275 is "zero". */
int ref_check(const uint8_t *saved, size_t length)
{
    struct ref_serial serial;
    int i;

    if (length != REF_SAVED_LENGTH) {
        return 7;
    }

    if (saved[AT_DIVIDER] > 3) {
        return 6;
    }
    if (saved[AT_PRESCALER0] < 1 || saved[AT_PRESCALER0] > 64) {
        return 6;
    }
    if (saved[AT_PRESCALER1] < 1 || saved[AT_PRESCALER1] > 64) {
        return 6;
    }
    if (saved[AT_ENTRY_COST] < 6 || saved[AT_ENTRY_COST] > 63) {
        return 6;
    }
    if (saved[AT_TOUT] != 0 && saved[AT_TOUT] != 1) {
        return 6;
    }
    if (saved[AT_TYPE] != 1 && saved[AT_TYPE] != 11) {
        return 6;
    }
    if (saved[AT_SPARE] & ~SPARE_EI_EXECUTED) {
        return 6;
    }
    if (!(saved[AT_SPARE] & SPARE_EI_EXECUTED) && saved[IRQ] != 0) {
        return 6;
    }
    for (i = GAP_FIRST; i <= GAP_LAST; i++) {
        if (saved[i] != 0) {
            return 6;
        }
    }
    if (saved[SIO] != 0) {
        return 6;
    }
    if (saved[TMR] & TMR_LOADS) {
        return 6;
    }
    if (saved[IRQ] & IRQ_MISSING) {
        return 6;
    }
    if (saved[RP] & RP_MISSING) {
        return 6;
    }

    load_serial(&serial, saved);
    if (!ref_serial_legal(&serial)) {
        return 6;
    }
    if (saved[AT_PORT_ZERO] != 0) {
        return 6;
    }
    return 0;
}

/* 01: "A counter of 256 is saved as 0." Both ways. */
static uint16_t load_counter(uint8_t byte)
{
    if (byte == 0) {
        return 256;
    }
    return byte;
}

static uint8_t save_counter(uint16_t counter)
{
    if (counter == 256) {
        return 0;
    }
    return (uint8_t)counter;
}

void ref_load(struct ref_machine *m, const uint8_t *saved)
{
    int i;

    for (i = 0; i < 256; i++) {
        m->file[i] = saved[i];
    }
    m->pc = (uint16_t)(saved[AT_PC_HIGH] * 256 + saved[AT_PC_LOW]);
    m->divider = saved[AT_DIVIDER];
    m->prescaler0 = saved[AT_PRESCALER0];
    m->counter0 = load_counter(saved[AT_COUNTER0]);
    m->prescaler1 = saved[AT_PRESCALER1];
    m->counter1 = load_counter(saved[AT_COUNTER1]);
    m->port3 = saved[AT_PORT3];
    m->tout = saved[AT_TOUT];
    m->type = saved[AT_TYPE];
    m->entry_cost = saved[AT_ENTRY_COST];
    m->ei_executed = saved[AT_SPARE] & SPARE_EI_EXECUTED;
    load_serial(&m->serial, saved);
}

void ref_save(const struct ref_machine *m, uint8_t *saved)
{
    int i;

    for (i = 0; i < 256; i++) {
        saved[i] = m->file[i];
    }
    saved[AT_PC_HIGH] = (uint8_t)(m->pc / 256);
    saved[AT_PC_LOW] = (uint8_t)(m->pc % 256);
    saved[AT_DIVIDER] = m->divider;
    saved[AT_PRESCALER0] = m->prescaler0;
    saved[AT_COUNTER0] = save_counter(m->counter0);
    saved[AT_PRESCALER1] = m->prescaler1;
    saved[AT_COUNTER1] = save_counter(m->counter1);
    saved[AT_PORT3] = m->port3;
    saved[AT_TOUT] = m->tout;
    saved[AT_TYPE] = m->type;
    saved[AT_ENTRY_COST] = m->entry_cost;
    saved[AT_SPARE] = m->ei_executed ? SPARE_EI_EXECUTED : 0;
    save_serial(&m->serial, saved);
}

/* One end of T0 while the serial port is on. C-11: "P30's level is that of the
   last pins (in a step or a run the byte given)"; parity of what is received is
   "as it stands at the transfer". C-13: before the first EI nothing latches, of
   the serial port neither, and the port moves as ever. */
static void serial_end(struct ref_machine *m, struct ref_timers *t)
{
    int p30 = (m->port3 & PORT3_P30) != 0;
    struct ref_serial_requests r;

    r = ref_serial_end(&m->serial, p30, parity_is_on(m));
    if (ref_irq_is_held(m)) {
        return;
    }
    if (r.request3) {
        t->irq = (uint8_t)(t->irq | IRQ_REQUEST3);
    }
    if (r.request4) {
        t->irq = (uint8_t)(t->irq | IRQ_REQUEST4);
    }
}

/* 01: "A span is any count from 0 to 4,294,967,295. It compares no pins; P31 is
   as in the last pins." Only the clock moves: no instruction, no grant; the
   program counter stays. The cycles are timers.c's; 004, 12.2: with the serial
   port on, T0's "end-of-count signal" is "used as the input to the divide-by-16
   counters", so each end of T0 is one of the port's, in the same cycle. C-11:
   "Off, nothing of the port moves". */
void ref_span(struct ref_machine *m, uint32_t cycles, uint32_t *ends0,
              uint32_t *ends1)
{
    struct ref_timers t = take_timers(m);
    uint32_t done, ends_before;

    if (ref_serial_on(m)) {
        for (done = 0; done != cycles; done++) {
            ends_before = t.ends0;
            ref_timer_cycle(&t);
            if (t.ends0 != ends_before) {
                serial_end(m, &t);
            }
        }
    } else {
        ref_timer_cycles(&t, cycles);
    }
    put_timers(m, &t);
    *ends0 = t.ends0;
    *ends1 = t.ends1;
}
