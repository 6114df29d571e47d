// Staff read the charts of their ward, from within the house alone.
@id("ward-reads")
permit(principal is Staff, action == Action::"read", resource)
when { principal.ward == resource.ward && context.address.inRange(ip("10.0.0.0/8")) };

// A sealed chart is read by senior staff alone.
@id("sealed-reads")
forbid(principal, action == Action::"read" resource)
when { resource.sealed }
unless { principal has grade && principal.grade >= 3 };

// Whoever is on the chart's ward writes it.
@id("ward-writes")
permit(principal, action == Action::"write", resource)
when { principal in resource.ward };
