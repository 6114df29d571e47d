// From within the house, staff read and write the charts of their own ward.
@id("own-ward")
permit(principal is Staff, action in Action::"chart", resource)
when { principal.ward == resource.ward && context.address.isInRange(ip("10.0.0.0/8")) };

// Whoever keeps a chart may do anything with it, from anywhere.
@id("keeper")
permit(principal, action, resource)
when { resource.keeper == principal };

// A sealed chart is written by staff of grade 3 and above alone.
@id("sealed")
forbid(principal, action == Action::"write", resource)
when { resource.sealed }
unless { principal has grade && principal.grade >= 3 };

// No action of the schema applies to a team: this can never be true, and `check` says so.
@id("teams")
permit(principal is Team, action, resource);
