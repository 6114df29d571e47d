permit(principal in Group::"g", action == Action::"view", resource);
forbid(principal == User::"bob", action, resource);
