adminnetworkpolicy.policy.networking.k8s.io/a
