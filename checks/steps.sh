# What bin/lint and .ci/run share: steps with names, times and counts. To be read by `.` in bash.
passed=0 failed=0

# Runs the command behind the name as a step, and returns its status.
step() {
  begin "$1"
  shift
  "$@"
  end $?
}

# Begins a step of this name.
begin() {
  step_name=$1 step_began=${EPOCHREALTIME/[.,]/}
  printf '== %s\n' "$step_name"
}

# Ends the step with this status: counts it, writes its time, and returns the status.
end() {
  local hundredths=$(((${EPOCHREALTIME/[.,]/} - step_began) / 10000)) how=passed
  if [ "$1" = 0 ]; then
    passed=$((passed + 1))
  else
    failed=$((failed + 1)) how="FAILED with status $1"
  fi
  printf '== %s: %s, %d.%02d s\n' "$step_name" "$how" $((hundredths / 100)) $((hundredths % 100))
  return "$1"
}

# Writes how many steps of this script passed, and ends it.
finish() {
  printf '%s: %d passed, %d failed\n' "$1" "$passed" "$failed"
  exit $((failed > 0))
}
