// MuJoCo's forward dynamics of a model's start as JSON, and the time of some steps: to be measured beside mj.
// usage: probe MODEL.xml STEPS [TAPE.csv]   The start is the first keyframe, if there is one; the tape's first record
// holds in it. Numbers are SI units in doubles; a list has an entry for each position, velocity, row or contact.
#include <mujoco/mujoco.h>
#include <stdio.h>
#include <stdlib.h>
#include <time.h>

typedef struct {
  double* values;  // records x nu
  int records;
} Tape;

static void print_list(const char* name, const mjtNum* values, int count) {
  printf("\"%s\": [", name);
  for (int i = 0; i < count; i++) printf("%s%.17g", i ? ", " : "", values[i]);
  printf("],\n");
}

// Reads at most `most` records of nu numbers.
static Tape read_tape(const char* path, int most, int nu) {
  Tape tape = {calloc((size_t)most * (size_t)nu + 1, sizeof(double)), 0};
  FILE* file = fopen(path, "r");
  if (!file || !tape.values) exit(1);
  int taken = 1;
  while (tape.records < most && taken == 1) {
    double* record = tape.values + tape.records * nu;
    for (int j = 0; j < nu && taken == 1; j++) taken = fscanf(file, j + 1 < nu ? "%lf," : "%lf", record + j);
    if (taken == 1) tape.records++;
  }
  fclose(file);
  return tape;
}

static void start(const mjModel* m, mjData* d, const Tape* tape) {
  if (m->nkey)
    mj_resetDataKeyframe(m, d, 0);
  else
    mj_resetData(m, d);
  if (tape->records) mju_copy(d->ctrl, tape->values, m->nu);
}

static void print_contacts(const mjData* d) {
  printf("\"contacts\": [");
  for (int c = 0; c < d->ncon; c++) {
    const mjContact* k = d->contact + c;
    printf(
        "%s{\"geom1\": %d, \"geom2\": %d, \"dist\": %.17g, \"pos\": [%.17g, %.17g, %.17g], \"normal\": [%.17g, %.17g, "
        "%.17g]}",
        c ? ", " : "", k->geom1, k->geom2, k->dist, k->pos[0], k->pos[1], k->pos[2], k->frame[0], k->frame[1],
        k->frame[2]);
  }
  printf("],\n");
}

static void print_start(const mjModel* m, const mjData* d) {
  printf("{\"version\": \"%s\",\n", mj_versionString());
  print_list("qpos", d->qpos, m->nq);
  print_list("qvel", d->qvel, m->nv);
  print_list("smooth", d->qacc_smooth, m->nv);
  print_list("qacc", d->qacc, m->nv);
  print_contacts(d);
  printf("\"rows\": %d,\n", d->nefc);
}

// Seconds of `steps` steps under the tape; rows: of all of them together.
static double time_steps(const mjModel* m, mjData* d, int steps, const Tape* tape, long* rows) {
  struct timespec a, b;
  clock_gettime(CLOCK_MONOTONIC, &a);
  for (int k = 0; k < steps; k++) {
    if (k < tape->records) mju_copy(d->ctrl, tape->values + k * m->nu, m->nu);
    mj_step(m, d);
    *rows += d->nefc;
  }
  clock_gettime(CLOCK_MONOTONIC, &b);
  return (double)(b.tv_sec - a.tv_sec) + 1e-9 * (double)(b.tv_nsec - a.tv_nsec);
}

int main(int count, char** words) {
  char fault[1000] = "";
  if (count < 3) {
    fprintf(stderr, "usage: probe MODEL.xml STEPS [TAPE.csv]\n");
    return 2;
  }
  mjModel* m = mj_loadXML(words[1], NULL, fault, sizeof fault);
  if (!m) {
    fprintf(stderr, "probe: %s\n", fault);
    return 1;
  }
  mjData* d = mj_makeData(m);
  int steps = atoi(words[2]);
  long rows = 0;
  Tape tape = {NULL, 0};
  if (count > 3) tape = read_tape(words[3], steps > 0 ? steps : 1, m->nu);
  start(m, d, &tape);
  mj_forward(m, d);
  print_start(m, d);
  start(m, d, &tape);
  double seconds = time_steps(m, d, steps, &tape, &rows);
  print_list("qpos_end", d->qpos, m->nq);
  print_list("qvel_end", d->qvel, m->nv);
  printf("\"steps\": %d, \"rows_of_all_steps\": %ld, \"seconds\": %.9f}\n", steps, rows, seconds);
  free(tape.values);
  mj_deleteData(d);
  mj_deleteModel(m);
  return 0;
}
