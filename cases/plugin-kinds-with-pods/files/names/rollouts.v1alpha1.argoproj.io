rollout.argoproj.io/a
rollout.argoproj.io/b
