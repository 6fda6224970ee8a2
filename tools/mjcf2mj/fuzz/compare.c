// Compares two MJCF models of one thing in MuJoCo: an original, and what mjcf2mj and mj2mjcf made of it.
// usage: compare ORIGINAL.xml CONVERTED.xml SEED STATES explicit|implicit|KEY
// For each of some states drawn from the seed, or for keyframe KEY (from 1), one line: the difference of the
// accelerations without constraints, relative to the largest entry; rows of both; contacts of both; the largest
// difference of a row (Jacobian, violation, reference acceleration); that of the accelerations with all forces, or -
// where regularizers differ. implicit: the original's acceleration is that of its Euler step, with damping in the
// matrix. A joint's place is measured from qpos0. Rows that no dof moves don't count.
#include <math.h>
#include <mujoco/mujoco.h>
#include <stdbool.h>
#include <stdio.h>
#include <stdlib.h>
#include <string.h>

typedef struct {
  mjModel* m;
  mjData* d;
} Side;

// One row, measured along two drawn motions: its Jacobian times both, violation and reference acceleration.
typedef struct {
  int type;
  double numbers[4], regularizer;
  bool taken;
} Row;

static unsigned long long state;  // of the generator of numbers

// From -1 to 1.
static double draw(void) {
  state = state * 6364136223846793005ULL + 1442695040888963407ULL;
  return (double)(state >> 11) / 4503599627370496.0 - 1;
}

static Side load(const char* path) {
  char fault[1000] = "";
  mjModel* m = mj_loadXML(path, NULL, fault, sizeof fault);
  if (!m) {
    fprintf(stderr, "compare: %s: %s\n", path, fault);
    exit(1);
  }
  m->opt.jacobian = mjJAC_DENSE;
  m->opt.solver = mjSOL_NEWTON;
  m->opt.iterations = 500;
  m->opt.tolerance = 0;
  m->opt.noslip_iterations = 0;
  return (Side){m, mj_makeData(m)};
}

static void draw_quat(double* quat) {
  for (int k = 0; k < 4; k++) quat[k] = draw();
  mju_normalize4(quat);
}

static void draw_joint(const Side* a, const Side* b, int j) {
  const mjModel* m = a->m;
  double *p = a->d->qpos + m->jnt_qposadr[j], *q = b->d->qpos + b->m->jnt_qposadr[j];
  double* start = m->qpos0 + m->jnt_qposadr[j];
  if (m->jnt_type[j] == mjJNT_FREE) {
    for (int k = 0; k < 3; k++) p[k] = start[k] + 0.1 * draw();
    draw_quat(p + 3);
    mju_copy(q, p, 7);
  } else if (m->jnt_type[j] == mjJNT_BALL) {
    draw_quat(p);
    mju_copy(q, p, 4);
  } else {
    q[0] = draw();
    p[0] = start[0] + q[0];
  }
}

static void draw_state(const Side* a, const Side* b) {
  for (int j = 0; j < a->m->njnt; j++) draw_joint(a, b, j);
  for (int i = 0; i < a->m->nv; i++) a->d->qvel[i] = b->d->qvel[i] = 2 * draw();
  for (int i = 0; i < a->m->nu; i++) a->d->ctrl[i] = 2 * draw();
  mju_copy(b->d->ctrl, a->d->ctrl, mjMIN(a->m->nu, b->m->nu));
}

// The acceleration without constraints: MuJoCo's own, or that of its Euler step.
static void smooth(const Side* side, bool implicit, double* out) {
  const mjModel* m = side->m;
  int nv = m->nv;
  mju_copy(out, side->d->qacc_smooth, nv);
  if (!implicit) return;
  double* M = calloc((size_t)(nv * nv), sizeof *M);
  mj_fullM(m, M, side->d->qM);
  for (int i = 0; i < nv; i++) M[i * nv + i] += m->opt.timestep * m->dof_damping[i];
  mju_cholFactor(M, nv, mjMINVAL);
  mju_cholSolve(out, M, side->d->qfrc_smooth, nv);
  free(M);
}

// The largest difference, relative to the largest entry.
static double apart(const double* a, const double* b, int n) {
  double worst = 0, scale = 1e-3;
  for (int i = 0; i < n; i++) {
    worst = fmax(worst, fabs(a[i] - b[i]));
    scale = fmax(scale, fabs(a[i]));
  }
  return worst / scale;
}

static bool moves(const Side* side, int row) {
  const double* J = side->d->efc_J + row * side->m->nv;
  for (int i = 0; i < side->m->nv; i++)
    if (J[i]) return true;
  return false;
}

// The rows that a dof moves; their number in count.
static Row* rows_of(const Side* side, const double* one, const double* two, int* count) {
  const mjData* d = side->d;
  int nv = side->m->nv;
  Row* rows = calloc((size_t)d->nefc + 1, sizeof *rows);
  *count = 0;
  for (int i = 0; i < d->nefc; i++) {
    const double* J = d->efc_J + i * nv;
    if (moves(side, i))
      rows[(*count)++] =
          (Row){d->efc_type[i],
                {mju_dot(J, one, nv), mju_dot(J, two, nv), d->efc_pos[i] - d->efc_margin[i], d->efc_aref[i]},
                d->efc_R[i],
                false};
  }
  return rows;
}

static double row_difference(const Row* a, const Row* b) {
  double worst = 0;
  for (int k = 0; k < 4; k++) worst = fmax(worst, fabs(a->numbers[k] - b->numbers[k]) / fmax(1, fabs(a->numbers[k])));
  return worst;
}

// How the rows of both sides agree.
typedef struct {
  int ours, theirs;
  double worst;
  bool regular;  // whether regularizers agree
} Match;

// Each row is matched with the nearest of its type.
static Match match_rows(const Side* a, const Side* b) {
  double one[500], two[500];
  Match match = {.regular = true};
  for (int i = 0; i < a->m->nv; i++) one[i] = draw(), two[i] = draw();
  Row *ours = rows_of(a, one, two, &match.ours), *theirs = rows_of(b, one, two, &match.theirs);
  for (int i = 0; i < match.ours; i++) {
    int best = -1;
    double least = 1e300;
    for (int k = 0; k < match.theirs; k++) {
      double off = row_difference(ours + i, theirs + k);
      if (theirs[k].taken || theirs[k].type != ours[i].type || off >= least) continue;
      best = k;
      least = off;
    }
    match.worst = fmax(match.worst, least);
    if (best < 0) continue;
    theirs[best].taken = true;
    if (fabs(ours[i].regularizer - theirs[best].regularizer) > 1e-9 * ours[i].regularizer) match.regular = false;
  }
  free(ours);
  free(theirs);
  return match;
}

static int contacts_with_rows(const Side* side) {
  int count = 0;
  for (int c = 0; c < side->d->ncon; c++) {
    int row = side->d->contact[c].efc_address;
    count += row >= 0 && moves(side, row);
  }
  return count;
}

static void compare(const Side* a, const Side* b, bool implicit) {
  int nv = a->m->nv;
  double x[500], y[500];
  mj_forward(a->m, a->d);
  mj_forward(b->m, b->d);
  smooth(a, implicit, x);
  smooth(b, false, y);
  Match match = match_rows(a, b);
  printf("smooth %.3g rows %d %d contacts %d %d row %.3g", apart(x, y, nv), match.ours, match.theirs,
         contacts_with_rows(a), contacts_with_rows(b), match.worst);
  if (match.regular && !implicit)
    printf(" full %.3g\n", apart(a->d->qacc, b->d->qacc, nv));
  else
    printf(" full -\n");
}

int main(int count, char** words) {
  if (count != 6) {
    fprintf(stderr, "usage: compare ORIGINAL.xml CONVERTED.xml SEED STATES explicit|implicit|KEY\n");
    return 2;
  }
  Side a = load(words[1]), b = load(words[2]);
  int states = atoi(words[4]), key = atoi(words[5]);
  if (a.m->nv != b.m->nv || a.m->nv > 500) {
    printf("velocities %d %d\n", a.m->nv, b.m->nv);
    return 1;
  }
  state = strtoull(words[3], NULL, 10) * 2654435761ULL + 1;
  for (int k = 0; k < states; k++) {
    if (key) {
      mj_resetDataKeyframe(a.m, a.d, key - 1);
      mj_resetDataKeyframe(b.m, b.d, 0);
      mju_zero(a.d->ctrl, a.m->nu);
    } else {
      draw_state(&a, &b);
    }
    compare(&a, &b, !strcmp(words[5], "implicit"));
  }
  mj_deleteData(a.d);
  mj_deleteData(b.d);
  mj_deleteModel(a.m);
  mj_deleteModel(b.m);
  return 0;
}
