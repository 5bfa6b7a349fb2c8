// What an inductive invariant has to show, and its certificate: the property follows from it, and each of its clauses holds behind every step.
#pragma once

#include <optional>
#include <vector>

#include "invariant.h"

// None where it is not inductive or the property does not follow. It throws NoCertificate, and Stopped.
std::optional<ForeverCertificate> certificate_of(const Chip &chip, const Property &property, const std::vector<Clause> &invariant, Stop &stop);
