/* The loops that bench/against_mpi times under MPI. `against_mpi KIND COUNT` runs COUNT rounds of a
 * kind, and rank 0 prints the nanoseconds of a round. The rounds are those of the rank programs in
 * bench/against_mpi, as bare loops: nothing is logged, and nothing recovers. */
#include <mpi.h>
#include <stdio.h>
#include <stdlib.h>
#include <string.h>

static int rank, size;

static void send(int to)
{
    long item = 1;
    MPI_Send(&item, 1, MPI_LONG, to, 0, MPI_COMM_WORLD);
}

static void receive(int from)
{
    long item;
    MPI_Recv(&item, 1, MPI_LONG, from, 0, MPI_COMM_WORLD, MPI_STATUS_IGNORE);
}

static void trip(void)
{
    if (rank == 0) {
        send(1);
        receive(1);
    } else {
        receive(0);
        send(0);
    }
}

static void one_way(void)
{
    if (rank == 0)
        send(1);
    else
        receive(0);
}

/* Every rank sends to every other, and then takes what each sent. */
static void all_pairs(void)
{
    for (int other = 0; other < size; other++)
        if (other != rank)
            send(other);
    for (int other = 0; other < size; other++)
        if (other != rank)
            receive(other);
}

static void barrier(void)
{
    MPI_Barrier(MPI_COMM_WORLD);
}

static void broadcast(void)
{
    long item = 1;
    MPI_Bcast(&item, 1, MPI_LONG, 0, MPI_COMM_WORLD);
}

static void reduce(void)
{
    long item = rank, sum;
    MPI_Reduce(&item, &sum, 1, MPI_LONG, MPI_SUM, 0, MPI_COMM_WORLD);
}

static const struct {
    const char *name;
    void (*round)(void);
} kinds[] = {{"trips", trip}, {"one_way", one_way}, {"all_pairs", all_pairs}, {"barriers", barrier}, {"broadcasts", broadcast}, {"reduces", reduce}};

static void play(void (*round)(void), int count)
{
    MPI_Barrier(MPI_COMM_WORLD);
    double begun = MPI_Wtime();
    for (int i = 0; i < count; i++)
        round();
    MPI_Barrier(MPI_COMM_WORLD);
    if (rank == 0 && count > 0)
        printf("%.1f\n", (MPI_Wtime() - begun) * 1e9 / count);
}

int main(int words, char **word)
{
    MPI_Init(&words, &word);
    MPI_Comm_rank(MPI_COMM_WORLD, &rank);
    MPI_Comm_size(MPI_COMM_WORLD, &size);
    for (size_t kind = 0; words == 3 && kind < sizeof kinds / sizeof *kinds; kind++)
        if (strcmp(word[1], kinds[kind].name) == 0)
            play(kinds[kind].round, atoi(word[2]));
    return MPI_Finalize();
}
