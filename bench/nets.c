/* The comparison of two circuits by BuDDy. The words are a file `nets` of circuits.py and, if the levels are to be the
   inputs as they are listed, `ports`; else they are the inputs as a walk meets them from the outputs of the first circuit
   back through its gates, each gate's inputs in the order of the text but the deepest last: the order of chipbool. */
#include <bdd.h>
#include <stdio.h>
#include <stdlib.h>
#include <string.h>
#include <time.h>

struct gate {
    char kind[8];
    int count, ins[8];
};

struct circuit {
    int gates, outputs;
    struct gate *gate;
    int *output;
};

static double seconds(void)
{
    struct timespec now;
    clock_gettime(CLOCK_MONOTONIC, &now);
    return now.tv_sec + now.tv_nsec / 1e9;
}

static void fail(const char *what)
{
    fprintf(stderr, "%s\n", what);
    exit(2);
}

/* The numbers up to the end of the line. */
static int numbers(FILE *file, int **list)
{
    int count = 0, room = 8, c;
    *list = malloc(room * sizeof **list);
    while ((c = getc(file)) == ' ') {
        if (count == room)
            *list = realloc(*list, (room *= 2) * sizeof **list);
        if (fscanf(file, "%d", &(*list)[count++]) != 1)
            fail("no number");
    }
    return count;
}

static void read_circuit(FILE *file, struct circuit *circuit)
{
    if (fscanf(file, " gates %d", &circuit->gates) != 1)
        fail("no gates");
    getc(file);
    circuit->gate = calloc(circuit->gates + 1, sizeof *circuit->gate);
    for (int k = 0; k < circuit->gates; k++) {
        int *ins;
        struct gate *gate = &circuit->gate[k];
        if (fscanf(file, "%7[a-z]", gate->kind) != 1)
            fail("no gate");
        gate->count = numbers(file, &ins);
        if (gate->count > 8)
            fail("a gate of more than eight inputs");
        memcpy(gate->ins, ins, gate->count * sizeof *ins);
        free(ins);
    }
    if (fscanf(file, " outputs") == EOF)
        fail("no outputs");
    circuit->outputs = numbers(file, &circuit->output);
}

/* The place of the deepest input of each gate, the last of those that are as deep. */
static int *deepest(int inputs, const struct circuit *circuit)
{
    int *depth = calloc(inputs + circuit->gates + 1, sizeof *depth), *place = calloc(circuit->gates + 1, sizeof *place);
    for (int k = 0; k < circuit->gates; k++) {
        const struct gate *gate = &circuit->gate[k];
        int most = 0;
        for (int i = 0; i < gate->count; i++)
            if (depth[gate->ins[i]] >= most) {
                most = depth[gate->ins[i]];
                place[k] = i;
            }
        depth[inputs + k] = most + 1;
    }
    free(depth);
    return place;
}

/* The level of each input. */
static int *levels(int inputs, const struct circuit *circuit, int by_ports)
{
    int *level = malloc((inputs + 1) * sizeof *level), next = 0, count = 0, room = 1024;
    char *seen = calloc(inputs + circuit->gates + 1, 1);
    int *pending = malloc(room * sizeof *pending), *last = deepest(inputs, circuit);
    for (int k = 0; k < inputs; k++)
        level[k] = by_ports ? next++ : -1;
    for (int o = 0; o < circuit->outputs && !by_ports; o++) {
        pending[count++] = circuit->output[o];
        while (count > 0) {
            int net = pending[--count];
            if (seen[net])
                continue;
            seen[net] = 1;
            if (net < inputs) {
                level[net] = next++;
                continue;
            }
            const struct gate *gate = &circuit->gate[net - inputs];
            if (count + 9 > room)
                pending = realloc(pending, (room *= 2) * sizeof *pending);
            if (gate->count > 0)
                pending[count++] = gate->ins[last[net - inputs]];
            for (int k = gate->count - 1; k >= 0; k--)
                if (k != last[net - inputs])
                    pending[count++] = gate->ins[k];
        }
    }
    for (int k = 0; k < inputs; k++)
        if (level[k] < 0)
            level[k] = next++;
    return level;
}

static bdd chain(bdd (*operation)(bdd, bdd), const struct gate *gate, const bdd *net)
{
    bdd found = net[gate->ins[0]];
    for (int k = 1; k < gate->count; k++)
        found = bdd_addref(operation(found, net[gate->ins[k]]));
    return found;
}

static bdd value(const struct gate *gate, const bdd *net)
{
    const char *kind = gate->kind;
    if (!strcmp(kind, "zero"))
        return bddfalse;
    if (!strcmp(kind, "one"))
        return bddtrue;
    if (!strcmp(kind, "buf"))
        return net[gate->ins[0]];
    if (!strcmp(kind, "not"))
        return bdd_not(net[gate->ins[0]]);
    if (!strcmp(kind, "mux"))
        return bdd_ite(net[gate->ins[0]], net[gate->ins[2]], net[gate->ins[1]]);
    if (!strcmp(kind, "and"))
        return chain(bdd_and, gate, net);
    if (!strcmp(kind, "or"))
        return chain(bdd_or, gate, net);
    if (!strcmp(kind, "xor"))
        return chain(bdd_xor, gate, net);
    if (!strcmp(kind, "nand"))
        return bdd_not(chain(bdd_and, gate, net));
    if (!strcmp(kind, "nor"))
        return bdd_not(chain(bdd_or, gate, net));
    if (!strcmp(kind, "xnor"))
        return bdd_not(chain(bdd_xor, gate, net));
    fail("no such gate");
    return bddfalse;
}

static bdd *nets(int inputs, const struct circuit *circuit, const int *level)
{
    bdd *net = malloc((inputs + circuit->gates + 1) * sizeof *net);
    for (int k = 0; k < inputs; k++)
        net[k] = bdd_ithvar(level[k]);
    for (int k = 0; k < circuit->gates; k++)
        net[inputs + k] = bdd_addref(value(&circuit->gate[k], net));
    return net;
}

int main(int count, char **words)
{
    struct circuit one, two;
    int inputs;
    FILE *file = count > 1 ? fopen(words[1], "r") : NULL;
    if (file == NULL || fscanf(file, "inputs %d", &inputs) != 1)
        fail("nets FILE [ports]");
    read_circuit(file, &one);
    read_circuit(file, &two);
    bdd_init(1000000, 200000);
    bdd_setmaxincrease(10000000);
    bdd_setvarnum(inputs ? inputs : 1);
    bdd_disable_reorder();
    double start = seconds();
    int *level = levels(inputs, &one, count > 2);
    bdd *first = nets(inputs, &one, level), *second = nets(inputs, &two, level);
    int differ = 0;
    for (int k = 0; k < one.outputs; k++)
        differ += first[one.output[k]] != second[two.output[k]];
    bddStat stat;
    bdd_stats(&stat);
    printf("%s, %ld nodes, %ld us\n", differ ? "differ" : "same", (long)stat.produced, (long)((seconds() - start) * 1e6));
    return differ ? 1 : 0;
}
