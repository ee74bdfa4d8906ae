ciliumnetworkpolicy.cilium.io/a
ciliumnetworkpolicy.cilium.io/a
